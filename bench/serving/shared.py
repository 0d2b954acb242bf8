"""What `run` and `soak` share: a peer of a server, a generated grid, what the system says of a process, and an answer of their own
to each line that asks for trade-offs, over the weights of the epoch that its reply names."""
import heapq
import os
import socket
import struct
import subprocess
from dataclasses import dataclass
from pathlib import Path


def words_of(line):
    return line.decode().split()


class Peer:
    """A connection, read line by line; its address is (HOST, PORT), or the path of a socket file."""

    def __init__(self, address, timeout=60):
        if isinstance(address, str):
            self.socket = socket.socket(socket.AF_UNIX)
            self.socket.settimeout(timeout)
            self.socket.connect(address)
        else:
            self.socket = socket.create_connection(address, timeout)
            self.socket.setsockopt(socket.IPPROTO_TCP, socket.TCP_NODELAY, 1)
        self.lines = self.socket.makefile("rb")

    def send(self, line):
        self.socket.sendall(line.encode() + b"\n")

    def read(self):
        """The lines of the next reply."""
        first = self.lines.readline()
        if first[:2] not in (b"r ", b"l "):
            return [first]
        return [first] + [self.lines.readline() for _ in range(int(first.split()[-1]))]

    def ask(self, line):
        """The lines of the reply to a line."""
        self.send(line)
        return self.read()

    def close(self):
        self.lines.close()
        self.socket.close()

    def reset(self):
        """Ends the connection by a reset."""
        self.socket.setsockopt(socket.SOL_SOCKET, socket.SO_LINGER, struct.pack("ii", 1, 0))
        self.close()


# ---- networks


def read_arcs(path):
    """The ends of a weight file's arcs, and their weights."""
    lines = [line.split() for line in Path(path).read_text().splitlines() if line.startswith("a ")]
    return [(int(u), int(v)) for _, u, v, _ in lines], [int(w) for *_, w in lines]


@dataclass
class Network:
    """Its weight files, the ends of its arcs, and their two weights in the files."""

    files: list
    arcs: list
    weights: list

    @staticmethod
    def read(files):
        (arcs, first), (_, second) = (read_arcs(path) for path in files)
        return Network([str(file) for file in files], arcs, list(zip(first, second)))

    @staticmethod
    def grid(program, side, folder):
        """A generated grid, whose files are put into the folder."""
        files = [Path(folder, f"{number}.gr") for number in (1, 2)]
        for number, file in enumerate(files, start=1):
            plan = f"gen --start 1 --side {side} --criteria 2 --pairs 1 --file {number}"
            file.write_bytes(subprocess.run([program, *plan.split()], check=True, stdout=subprocess.PIPE).stdout)
        return Network.read(files)

    @property
    def nodes(self):
        return max(max(ends) for ends in self.arcs)


# ---- answers of this script's own


def fronts_from(arcs, weights, start):
    """The best costs of each node, in lexicographic order: Martins' search. An arc without weights is shut."""
    leading = {}
    for (tail, head), weight in zip(arcs, weights):
        if weight:
            leading.setdefault(tail, []).append((head, weight))
    settled, waiting = {}, [((0, 0), start)]
    while waiting:
        cost, node = heapq.heappop(waiting)
        costs = settled.setdefault(node, [])
        if costs and costs[-1][1] <= cost[1]:
            continue
        costs.append(cost)
        for head, weight in leading.get(node, []):
            heapq.heappush(waiting, (plus(cost, weight), head))
    return settled


def plus(one, other):
    return one[0] + other[0], one[1] + other[1]


def is_within(cost, limits):
    return all(bound is None or part <= bound for part, bound in zip(cost, limits))


def dominates(one, other):
    return one != other and one[0] <= other[0] and one[1] <= other[1]


def counted_pairs(arcs, weights, kind, start, target, limits):
    """How many pairs of a node and a cost count against the budget: the relevant ones, or of `g` and `h` the goal-relevant ones."""
    fronts = fronts_from(arcs, weights, start)
    bounds = {}
    if kind in "gh":
        back = fronts_from([(head, tail) for tail, head in arcs], weights, target)
        bounds = {node: tuple(min(cost[part] for cost in costs) for part in (0, 1)) for node, costs in back.items()}
    count = 0
    for node, costs in fronts.items():
        if kind in "gh" and node not in bounds:
            continue
        for cost in costs:
            ahead = plus(cost, bounds.get(node, (0, 0)))
            count += is_within(ahead, limits) and not any(dominates(best, ahead) for best in fronts.get(target, []))
    return count


def walk_of(arcs, weights, start, walk):
    """Where a walk leads to, and its cost; None where its arcs don't follow one another, or one is shut."""
    node, cost = start, (0, 0)
    for arc in walk:
        if not 1 <= arc <= len(arcs) or arcs[arc - 1][0] != node or not weights[arc - 1]:
            return None
        node, cost = arcs[arc - 1][1], plus(cost, weights[arc - 1])
    return node, cost


def is_right(arcs, weights, line, told, budget=None):
    """Whether this is the reply to the line over these weights: all best costs within its bounds, and with walks each of its cost; or
    the refusal that is due. The lines of the reply are lists of words."""
    kind, *numbers = line.split()
    start, target = int(numbers[0]), int(numbers[1])
    limits = tuple(None if bound == "-" else int(bound) for bound in numbers[2:]) or (None, None)
    nodes = {node for ends in arcs for node in ends}
    if not {start, target} <= nodes:
        refusal = "node"
    elif budget is not None and counted_pairs(arcs, weights, kind, start, target, limits) > budget:
        refusal = "budget"
    else:
        refusal = None
    if refusal:
        return len(told) == 1 and told[0][0] == "x" and told[0][2:] == [str(start), str(target), refusal]
    front = [cost for cost in fronts_from(arcs, weights, start).get(target, []) if is_within(cost, limits)]
    head = "l" if kind in "lh" else "r"
    if told[0][0] != head or told[0][2:] != [*numbers, str(len(front))] or len(told) != len(front) + 1:
        return False
    for words, cost in zip(told[1:], front):
        if words[:3] != ["v" if kind == "c" else "p", str(cost[0]), str(cost[1])]:
            return False
        walk = [int(arc) for arc in words[4:]]
        if kind != "c" and (walk_of(arcs, weights, start, walk) != (target, cost) or words[3] != str(len(walk))):
            return False
    return True


def count_wrong(network, epochs, told, budget=None):
    """How many replies aren't those of the epoch that they name: `epochs` has the changes of each, from 1 on, and `told` replies by their
    epoch and line."""
    weights, wrong, at = list(network.weights), 0, 0
    for (number, line), reply in sorted(told.items()):
        while at < number:
            for arc, weight in epochs[at].items():
                weights[arc - 1] = weight
            at += 1
        wrong += not is_right(network.arcs, weights, line, reply, budget)
    return wrong


# ---- the server, as the system sees it


def free_ports():
    with socket.create_server(("127.0.0.1", 0)) as one, socket.create_server(("127.0.0.1", 0)) as other:
        return one.getsockname()[1], other.getsockname()[1]


def processor_time(pid):
    fields = Path(f"/proc/{pid}/stat").read_text().rsplit(")", 1)[1].split()
    return (int(fields[11]) + int(fields[12])) / os.sysconf("SC_CLK_TCK")


def status_of(pid, name):
    """A number of /proc/PID/status: kB, or a count."""
    lines = Path(f"/proc/{pid}/status").read_text().splitlines()
    return int(next(line for line in lines if line.startswith(f"{name}:")).split()[1])


def descriptors(pid):
    return len(os.listdir(f"/proc/{pid}/fd"))
