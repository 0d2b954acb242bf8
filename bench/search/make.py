"""Writes a road-like network and two files of pairs of it: make.py NODES CRITERIA SEED STEM [--near P] [--far P]

STEM.1.gr .. STEM.D.gr list the same arcs with a distance (dm), a time (1/100 s), a toll and a climb (dm); STEM.near.p2p and
STEM.far.p2p have pairs. Nodes are scattered on a plane, one in each cell of a lattice. A tree of random roads joins them, and
further ones are added up to 1.3 roads a node; each road is two arcs. Every 8th row and column of cells has a main road, every
32nd a motorway, of which half take a toll: these are straighter and faster, and few local roads meet a motorway. The same
numbers give the same bytes.
"""
import argparse
import math
import random

CELL = 1000  # dm
ROADS_A_NODE = 1.3
# By class, local to motorway: the speed in km/h, and how much longer than straight a road may be.
SPEED = (30, 60, 110)
BEND = (0.30, 0.12, 0.04)


class Map:
    """The nodes by their places and heights, and the class and the toll of the line of cells that a road follows."""

    def __init__(self, nodes, seed):
        self.random = random.Random(seed)
        self.side = max(2, math.isqrt(nodes))
        self.count = self.side * self.side
        draw = self.random.uniform
        self.x = [(v % self.side) * CELL + draw(0, 0.8) * CELL for v in range(self.count)]
        self.y = [(v // self.side) * CELL + draw(0, 0.8) * CELL for v in range(self.count)]
        self.waves = [(draw(2e-5, 2e-4), draw(2e-5, 2e-4), draw(0, 6.3), draw(200, 1500)) for _ in range(5)]
        self.tolls = {line: self.random.choice((0, 0, 6, 9)) for line in range(2 * self.side)}

    def height(self, v):
        return sum(h * math.sin(a * self.x[v] + b * self.y[v] + c) for a, b, c, h in self.waves)

    def class_of(self, line):
        return 2 if line % 32 == 16 else 1 if line % 8 == 4 else 0

    def candidates(self):
        """Roads that may be built: their ends, their class, their line, and a number by which the least are built first."""
        for v in range(self.count):
            row, column = divmod(v, self.side)
            if column + 1 < self.side:
                yield self.candidate(v, v + 1, self.class_of(row), row, self.class_of(column), self.class_of(column + 1))
            if row + 1 < self.side:
                yield self.candidate(v, v + self.side, self.class_of(column), self.side + column, self.class_of(row), self.class_of(row + 1))
            if row + 1 < self.side and column + 1 < self.side and self.random.random() < 0.08:
                yield (0.5 + self.random.random(), v, v + self.side + 1, 0, 0)

    def candidate(self, tail, head, kind, line, crossed, next_crossed):
        meets_motorway = kind == 0 and 2 in (crossed, next_crossed)
        return (self.random.random() - kind + meets_motorway, tail, head, kind, line)

    def roads(self):
        """A tree of the candidates that come first, and the next of the others."""
        parent = list(range(self.count))

        def root(v):
            while parent[v] != v:
                parent[v] = parent[parent[v]]
                v = parent[v]
            return v

        built, others = [], []
        for road in sorted(self.candidates()):
            a, b = root(road[1]), root(road[2])
            if a != b:
                parent[a] = b
                built.append(road)
            else:
                others.append(road)
        return sorted((r[1:] for r in built + others[: int(ROADS_A_NODE * self.count) - len(built)]))

    def arcs(self):
        """Each road as two arcs: tail, head, and the four weights."""
        for a, b, kind, line in self.roads():
            straight = math.hypot(self.x[a] - self.x[b], self.y[a] - self.y[b])
            length = 1 + int(straight * (1 + self.random.uniform(0, BEND[kind])))
            time = 1 + int(length * 36 / (SPEED[kind] * self.random.uniform(0.8, 1.2)))
            toll = length * self.tolls[line] // 100 if kind == 2 else 0
            climb = int(self.height(b) - self.height(a))
            yield a + 1, b + 1, (length, time, toll, max(climb, 0))
            yield b + 1, a + 1, (length, time, toll, max(-climb, 0))

    def pair(self, span):
        """A pair of nodes that are so many cells apart in both directions, as far as there are so many."""
        span = min(span, self.side - 1)
        row, column = self.random.randrange(self.side - span), self.random.randrange(self.side - span)
        ends = [row * self.side + column + 1, (row + span) * self.side + column + span + 1]
        if self.random.random() < 0.5:
            ends.reverse()
        return tuple(ends)


def write(name, head, lines):
    with open(name, "w") as out:
        out.write(head + "\n")
        out.writelines(lines)


def write_pairs(name, pairs):
    write(name, "p aux sp p2p %d" % len(pairs), ["q %d %d\n" % pair for pair in pairs])


def make(nodes, criteria, seed, stem, near, far):
    world = Map(nodes, seed)
    arcs = list(world.arcs())
    for j in range(criteria):
        lines = ["a %d %d %d\n" % (tail, head, weights[j]) for tail, head, weights in arcs]
        write("%s.%d.gr" % (stem, j + 1), "p sp %d %d" % (world.count, len(arcs)), lines)
    write_pairs(stem + ".near.p2p", [world.pair(5) for _ in range(near)])
    write_pairs(stem + ".far.p2p", [world.pair(world.side * 2 // 3) for _ in range(far)])


if __name__ == "__main__":
    words = argparse.ArgumentParser(description=__doc__.split("\n")[0])
    words.add_argument("nodes", type=int)
    words.add_argument("criteria", type=int, choices=(2, 3, 4))
    words.add_argument("seed", type=int)
    words.add_argument("stem")
    words.add_argument("--near", type=int, default=50)
    words.add_argument("--far", type=int, default=5)
    given = words.parse_args()
    make(given.nodes, given.criteria, given.seed, given.stem, given.near, given.far)
