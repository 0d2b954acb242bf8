#!/usr/bin/env python3
"""Checks a certificate against weight files: check.py CERTIFICATE FILE FILE [FILE [FILE]].

It knows nothing of any search. It prints the costs of the answer, one a line (`v C1 .. CD`), and answers 0; or it says why
the certificate isn't accepted, and answers 11 (a faulty line) or 12 (a rule fails). The weight files are taken to agree."""
import sys
from bisect import bisect_left

MAX_LINE, MAX_TEXT, MAX_LABELS, MAX_COMPONENT = 1024, 2**29, 4_000_000, 2**58


class Refused(Exception):
    """The status, and what is at fault."""

def read_network(names):
    """The number of nodes, and for each arc from 1 its tail, its head and its vector."""
    nodes, columns = 0, []
    for name in names:
        arcs = []
        for line in open(name, "rb"):
            fields = line.split()
            if fields and fields[0] == b"p":
                nodes = int(fields[2])
            elif fields and fields[0] == b"a":
                arcs.append(tuple(map(int, fields[1:4])))
        columns.append(arcs)
    arcs = [None]
    for same in zip(*columns):
        arcs.append((same[0][0], same[0][1], tuple(arc[2] for arc in same)))
    return nodes, arcs


def number(field, least, greatest):
    """The number that a field writes in ASCII digits, where it is in range."""
    if not field.isdigit():
        return None
    text = field.lstrip(b"0") or b"0"
    return int(text) if len(text) <= 20 and least <= int(text) <= greatest else None


def lines_of(text):
    """The lines with the place behind each; the last one may lack its LF."""
    start = 0
    while start < len(text):
        end = text.find(b"\n", start)
        after = len(text) if end < 0 else end + 1
        yield text[start:len(text) if end < 0 else end], after
        start = after


def fields_of(line):
    line = line[:-1] if line.endswith(b"\r") else line
    return [field for field in line.replace(b"\t", b" ").split(b" ") if field]


def read_heading(fields, nodes, criteria):
    if len(fields) != 5 or fields[0] != b"z":
        return None
    ranges = (criteria, criteria), (1, nodes), (1, nodes), (0, MAX_LABELS)
    found = [number(field, *bounds) for field, bounds in zip(fields[1:], ranges)]
    return None if None in found else found[1:]


def read_label(fields, nodes, arcs, criteria):
    if len(fields) != criteria + 3 or fields[0] != b"b":
        return None
    node, arc = number(fields[1], 1, nodes), number(fields[2], 0, arcs)
    cost = tuple(number(field, 0, MAX_COMPONENT) for field in fields[3:])
    return None if node is None or arc is None or None in cost else (node, cost, arc)


def read_certificate(text, nodes, arcs, criteria):
    """The start, the target and the labels (node, cost, arc)."""
    heading, labels, count = None, [], 0
    for line, after in lines_of(text):
        count += 1
        if len(line) > MAX_LINE or after > MAX_TEXT:
            raise Refused(11, f"line {count}")
        fields = fields_of(line)
        if heading is None:
            heading = read_heading(fields, nodes, criteria)
            if heading is None:
                raise Refused(11, f"line {count}")
            continue
        label = read_label(fields, nodes, arcs, criteria)
        if label is None or len(labels) >= heading[2] or labels and label[:2] <= labels[-1][:2]:
            raise Refused(11, f"line {count}")
        labels.append(label)
    if heading is None or len(labels) < heading[2]:
        raise Refused(11, f"line {count + 1}")
    return heading[0], heading[1], labels


def at_most(a, b):
    return all(x <= y for x, y in zip(a, b))


def check(nodes, arcs, start, target, labels):
    """The five rules, label by label. What dominates a cost is lexicographically less, so it stands before it."""
    zero, listed, costs, out = (0,) * len(labels[0][1] if labels else ()), {}, {}, {}
    for node, cost, arc in labels:
        listed[node, cost] = arc
        costs.setdefault(node, []).append(cost)
    for arc in range(1, len(arcs)):
        out.setdefault(arcs[arc][0], []).append(arc)

    def beaten(node, cost):
        of_node = costs.get(node, [])
        return any(at_most(other, cost) for other in of_node[:bisect_left(of_node, cost)])

    if listed.get((start, zero)) != 0:
        raise Refused(12, f"rule 1 label 0")
    for i, (node, cost, arc) in enumerate(labels, 1):
        if arc == 0 and (node, cost) != (start, zero):
            raise Refused(12, f"rule 1 label {i}")
        if arc != 0:
            tail, head, by = arcs[arc]
            before = tuple(x - y for x, y in zip(cost, by))
            if head != node or min(before) < 0 or (tail, before) not in listed:
                raise Refused(12, f"rule 2 label {i}")
        later = False
        for k in out.get(node, []):
            tail, head, by = arcs[k]
            total = tuple(x + y for x, y in zip(cost, by))
            if (head, total) not in listed and not beaten(head, total) and not beaten(target, total):
                raise Refused(12, f"rule 3 label {i}")
            later = later or listed.get((head, total), 0) > k
        if later:
            raise Refused(12, f"rule 4 label {i}")
        if beaten(node, cost):
            raise Refused(12, f"rule 5 label {i}")
    return costs.get(target, [])


def main(words):
    certificate, *names = words
    nodes, arcs = read_network(names)
    text = open(certificate, "rb").read(MAX_TEXT + 1)
    try:
        start, target, labels = read_certificate(text, nodes, len(arcs) - 1, len(names))
        for cost in check(nodes, arcs, start, target, labels):
            print("v", *cost)
        return 0
    except Refused as fault:
        print(f"route: cert {certificate} {fault.args[1]}", file=sys.stderr)
        return fault.args[0]


if __name__ == "__main__":
    sys.exit(main(sys.argv[1:]))
