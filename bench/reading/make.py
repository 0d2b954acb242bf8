"""Writes two weight files of a grid of roads, the same arcs with different weights: make.py ARCS A.gr B.gr"""
import sys

arcs = int(sys.argv[1])
side = 1
while 4 * side * (side - 1) < arcs:
    side += 1
for file, start in zip(sys.argv[2:], (1, 1001)):
    x = start
    with open(file, "w") as out:
        lines = ["c a grid of %d by %d nodes" % (side, side), "p sp %d %d" % (side * side, arcs)]
        left = arcs
        for node in range(side * side):
            row, column = divmod(node, side)
            for r, c in ((row, column + 1), (row + 1, column), (row, column - 1), (row - 1, column)):
                if left and 0 <= r < side and 0 <= c < side:
                    x = (75 * x + 74) % 65537
                    lines.append("a %d %d %d" % (node + 1, r * side + c + 1, 1 + x % 10000))
                    left -= 1
            if len(lines) > 100000:
                out.write("\n".join(lines) + "\n")
                lines = []
        out.write("\n".join(lines) + "\n")
