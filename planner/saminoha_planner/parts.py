"""Many pairs cut into parts whose answers are kept in files of their own, and put together in
the order of the pairs.

A part's file is written beside its place and then moved there, so that it is there whole or not
at all. What a part says depends on nothing but its pairs and the network; so the whole is the
same however the parts fell, and after every kill.
"""

from __future__ import annotations

import csv
import json
import os
from collections.abc import Iterable, Iterator, Sequence
from dataclasses import asdict, dataclass
from pathlib import Path
from typing import TYPE_CHECKING, TextIO

from .client import Answer, Program, Refusal
from .command import Fault

if TYPE_CHECKING:
    from .criteria import Criterion
    from .network import Network

Pair = tuple[int, int]


@dataclass(frozen=True)
class Plan:
    """What the parts of a folder are of. A folder whose plan is another one isn't gone on with."""

    network_sha256: str
    pairs: tuple[Pair, ...]
    part: int  # pairs in a part
    budget: int

    @property
    def count(self) -> int:
        return -(-len(self.pairs) // self.part)

    def pairs_of(self, number: int) -> tuple[Pair, ...]:
        return self.pairs[number * self.part : (number + 1) * self.part]


class Folder:
    def __init__(self, path: Path, plan: Plan) -> None:
        self.path, self.plan = path, plan
        (path / "parts").mkdir(parents=True, exist_ok=True)
        written = json.dumps(asdict(plan)) + "\n"
        file = path / "plan.json"
        if not file.exists():
            _write_whole(file, written)
        elif file.read_text() != written:
            raise Fault(
                f"{path} has parts of other pairs, another network, budget or size of parts:"
                " name another folder"
            )

    def file_of(self, number: int) -> Path:
        return self.path / "parts" / f"{number:06d}.jsonl"

    def missing(self, numbers: Sequence[int]) -> list[int]:
        return [number for number in numbers if not self.file_of(number).exists()]

    def keep(self, number: int, text: str) -> None:
        _write_whole(self.file_of(number), text)

    def merge(self, network: Network) -> None:
        """`answers.jsonl` and `od.csv`, of all parts."""
        answers, table = self.path / "answers.jsonl", self.path / "od.csv"
        with _beside(answers) as out, _beside(table) as rows:
            writer = csv.writer(rows, lineterminator="\n")
            writer.writerow(
                [
                    "pair",
                    "from",
                    "to",
                    "status",
                    "trade_offs",
                    *(f"least {_heading(one)}" for one in network.criteria),
                ]
            )
            for number, line in enumerate(self._lines(), start=1):
                entry = json.loads(line)
                out.write(json.dumps({"pair": number} | entry) + "\n")
                writer.writerow([number, *_row(entry, network.criteria)])
        os.replace(f"{answers}.new", answers)
        os.replace(f"{table}.new", table)

    def _lines(self) -> Iterator[str]:
        for number in range(self.plan.count):
            with self.file_of(number).open() as lines:
                yield from lines


def run_part(program: Program, files: Sequence[str], pairs: Sequence[Pair]) -> str:
    """The answers to these pairs, a line of JSON each."""
    return "".join(_line(reply) for reply in program.batch(files, pairs))


def share(count: int, text: str | None) -> list[int]:
    """The numbers of the parts, or of the K-th of N shares of them."""
    if text is None:
        return list(range(count))
    k, slash, n = text.partition("/")
    if not (slash and k.isdecimal() and n.isdecimal() and 1 <= int(k) <= int(n)):
        raise Fault(f"{text!r} is no K/N with K from 1 to N")
    return list(range(int(k) - 1, count, int(n)))


def read_pairs(file: Path, network: Network) -> list[Pair]:
    """Of a .p2p file, or of a table whose rows are two ends: names, nodes, or `lon,lat` between
    quotes. A first row that has no end of the network is of headings, of which two are `from` and
    `to`; without such a row the first two columns count.
    """
    with file.open(newline="", encoding="utf-8-sig") as lines:
        delimiter = "\t" if file.suffix == ".tsv" else ","
        rows = [row for row in csv.reader(_plain(lines), delimiter=delimiter) if row]
    if file.suffix == ".p2p":
        words = [" ".join(row).split() for row in rows]
        ends = [(row[1], row[2]) for row in words if row[0] == "q" and len(row) > 2]
    else:
        ends = _ends_of_table(file, rows, network)
    if not ends:
        raise Fault(f"{file} has no pairs")
    return [
        (network.find(source.strip()), network.arrival(network.find(target.strip())))
        for source, target in ends
    ]


def _ends_of_table(file: Path, rows: list[list[str]], network: Network) -> list[tuple[str, str]]:
    columns, first = (0, 1), 0
    if rows and (heads := [name.strip().casefold() for name in rows[0]]):
        if "from" in heads and "to" in heads:
            columns, first = (heads.index("from"), heads.index("to")), 1
        elif len(heads) < 2 or not all(_is_end(network, name) for name in rows[0][:2]):
            raise Fault(
                f"{file} begins with {', '.join(rows[0][:4])}, which are no ends and no headings"
                " that are known: name the columns of the ends from and to"
            )
    for number, row in enumerate(rows[first:], start=first + 1):
        if len(row) <= max(columns):
            raise Fault(f"{file}, row {number}, has no two ends: {', '.join(row)}")
    return [(row[columns[0]], row[columns[1]]) for row in rows[first:]]


def _is_end(network: Network, text: str) -> bool:
    try:
        network.find(text.strip())
    except Fault:
        return False
    return True


def _plain(lines: Iterable[str]) -> Iterator[str]:
    return (line for line in lines if line.strip() and not line.lstrip().startswith(("c ", "#")))


def _line(reply: Answer | Refusal) -> str:
    entry: dict[str, object] = {"from": reply.source, "to": reply.target}
    if isinstance(reply, Refusal):
        entry |= {"status": reply.reason}
    else:
        entry |= {
            "status": "ok",
            "routes": [{"cost": route.cost, "arcs": route.arcs} for route in reply.routes],
        }
    return json.dumps(entry) + "\n"


def _heading(criterion: Criterion) -> str:
    unit = criterion.shown_unit
    return f"{criterion.name} ({unit})" if unit else criterion.name


def _row(entry: dict, criteria: Sequence[Criterion]) -> list[object]:
    costs = [route["cost"] for route in entry.get("routes", [])]
    least = [
        f"{one.value(min(cost[place] for cost in costs)):.{one.digits + 2}f}" if costs else ""
        for place, one in enumerate(criteria)
    ]
    return [
        entry["from"],
        entry["to"],
        entry["status"],
        len(costs) if entry["status"] == "ok" else "",
        *least,
    ]


def _beside(file: Path) -> TextIO:
    return open(f"{file}.new", "w", newline="")


def _write_whole(file: Path, text: str) -> None:
    beside = file.with_name(f"{file.name}.{os.getpid()}.new")
    beside.write_text(text)
    os.replace(beside, file)
