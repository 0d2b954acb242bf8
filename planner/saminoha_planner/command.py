"""How the tools end: with status 1 and one line on standard error where something is wrong, 130
where they are interrupted.
"""

from __future__ import annotations

import argparse
import os
import sys
from collections.abc import Callable
from pathlib import Path

from .client import DEFAULT_BUDGET, MOST_BUDGET, ClientError, Program, Proof, Refused

BROKEN_PIPE = 141  # as a shell tells of who was ended by it
BYTES_OF_LABEL = 60  # at most, as measured


class Fault(Exception):
    """What a tool's user can mend: its text is shown as it is."""


def run(main: Callable[[], int | None]) -> None:
    name = Path(sys.argv[0]).name
    try:
        status = main() or 0
        sys.stdout.flush()
        sys.exit(status)
    except BrokenPipeError:  # who reads has enough, as head
        os.dup2(os.open(os.devnull, os.O_WRONLY), sys.stdout.fileno())
        sys.exit(BROKEN_PIPE)
    except (Fault, ClientError, OSError) as fault:
        print(f"{name}: {fault}{advice(fault)}", file=sys.stderr)
        sys.exit(1)
    except KeyboardInterrupt:
        print(f"{name}: interrupted", file=sys.stderr)
        sys.exit(130)


def advice(fault: Exception) -> str:
    """What to do where a query passes its budget; nothing of other faults."""
    if not isinstance(fault, Refused) or fault.refusal.reason != "budget":
        return ""
    larger = ""
    if fault.budget is None or fault.budget < MOST_BUDGET:
        most = MOST_BUDGET * BYTES_OF_LABEL / 1e9
        larger = (
            f" a larger --budget (at most {MOST_BUDGET:,}, which may take {most:.0f} GB of memory);"
        )
    of = f" of {fault.budget:,}" if fault.budget else ""
    return (
        f"{of}. What helps:{larger} fewer criteria (--criteria distance,time); limits"
        " (--limit time=30min); coarser weights (import_osm.py --coarser time=10)"
    )


def proof_text(proof: Proof) -> str:
    """What is said with each answer of whether the program is the proved one."""
    return {
        Proof.PROVED: "by the proved program: none is left out",
        Proof.UNPROVED: "by a program that isn't proved here: ./route build proves and makes it",
        Proof.UNKNOWN: "by a program that doesn't say whether it is proved",
    }[proof]


def add_program_options(parser: argparse.ArgumentParser) -> None:
    group = parser.add_argument_group("the program")
    group.add_argument(
        "--route",
        metavar="PATH",
        help="the program; else the environment's ROUTE, else ./route or the installed saminoha",
    )
    group.add_argument(
        "--budget",
        type=int,
        default=DEFAULT_BUDGET,
        metavar="LABELS",
        help="labels of a query at most, counted as the command `goal` does (10 million)",
    )
    group.add_argument(
        "--workers", type=int, default=1, metavar="W", help="threads that share each search (1)"
    )
    group.add_argument(
        "--timeout", type=float, metavar="SECONDS", help="how long the program may take"
    )


def program_of(words: argparse.Namespace) -> Program:
    return Program.find(
        words.route, budget=words.budget, workers=words.workers, timeout=words.timeout
    )
