#!/usr/bin/env python3
"""Counts what a compaction costs a cell, a pointer, a wrapper and a weak entry, and prints one table.

    ./gczone prove                               # proves and builds the program
    bench/compaction.py [--cells N,..] [--limit SECONDS] [--program PATH]

For each number of --cells (10000,100000,1000000): the instructions of the line `compact 0` as valgrind counts them,
which are those of a run with it less those of one without it, by that number. Every second slot of the zone's arenas is
free, so half of the cells move. Each cell has a pointer to the one before it, and `pointer` says what one more costs;
`wrapper`, what one from another zone that leads to a cell does; `weak entry`, what one with a cell as its key does.
These numbers are the same from run to run, whatever else the machine does. A run that takes longer than --limit seconds
(600) has none.
"""

import sys
import tempfile
from argparse import ArgumentTypeError
from pathlib import Path

sys.dont_write_bytecode = True
sys.path.insert(0, str(Path(__file__).resolve().parent.parent / "tools"))

from command_line import Parser, at_least, run_main  # noqa: E402 (no bytecode beside the sources)
from families import places  # noqa: E402
from progress import Progress  # noqa: E402
from speed import count_instructions, find_program, print_head, print_row, require, write_trace  # noqa: E402

POINTERS = 7


def cell():
    return ["new r1 0 1"]


def pointers():
    return [f"new r1 0 {1 + POINTERS}", *(f"set r1 {field} r0" for field in range(1, 1 + POINTERS))]


def wrapper():
    return [*cell(), "wrap r3 r1 1"]


def entry():
    return [*cell(), "put r15 r1 r0"]


# The lines of a cell of each kind, and how many of what is counted it has beside the cell.
KINDS = {"cell": (cell, 1), "pointer": (pointers, POINTERS), "wrapper": (wrapper, 1), "weak entry": (entry, 1)}


def holed(lines, count, compacts):
    """A zone with this number of cells in a list, behind each of which a slot is free."""
    yield from [*places(2), "map r15 0", "new r0 0 1"]
    for _ in range(count):
        yield from [*lines(), "set r1 0 r0", "copy r0 r1", "new r2 0 0"]
    yield from ["drop r2", "collect 0"]
    if compacts:
        yield "compact 0"


def cost_of(program, folder, lines, count, limit):
    """The instructions of the compaction, or None when a run takes too long."""
    trace = Path(folder) / "trace"
    runs = []
    for compacts in (False, True):
        write_trace(trace, holed(lines, count, compacts))
        runs.append(count_instructions([program, "run", "--helpers", "0"], trace, limit))
        if runs[-1] is None:
            return None
    return runs[1] - runs[0]


def measure(program, folder, counts, limit, progress):
    """Prints a row for each number of cells."""
    for count in progress.over(counts):
        costs = {kind: cost_of(program, folder, lines, count, limit) for kind, (lines, _) in KINDS.items()}
        more = {
            kind: (cost - costs["cell"]) / count / KINDS[kind][1]
            for kind, cost in costs.items() if kind != "cell" and None not in (cost, costs["cell"])
        }
        # The pointer that each cell has is no part of the cell.
        if "pointer" in more:
            more["cell"] = costs["cell"] / count - more["pointer"]
        print_row(f"{count:,}", *(f"{more[kind]:.1f}" if kind in more else "-" for kind in KINDS))


def numbers(text):
    try:
        return [at_least(1)(part) for part in text.split(",")]
    except ArgumentTypeError:
        raise ArgumentTypeError(f"{text!r} is no list of numbers from 1 on") from None


def read_words():
    words = Parser(__doc__)
    words.add_argument(
        "--cells", type=numbers, metavar="N,..", default=[10_000, 100_000, 1_000_000],
        help="how many cells the zone has (10000,100000,1000000)"
    )
    words.add_argument(
        "--limit", type=at_least(1), metavar="SECONDS", default=600, help="how long a run may take (600)"
    )
    words.add_argument("--program", type=Path, metavar="PATH", help="the gczone to measure")
    return words.parse_args()


def main():
    given = read_words()
    require("valgrind")
    program = find_program(given.program)
    with tempfile.TemporaryDirectory() as folder, Progress("numbers of cells", len(given.cells)) as progress:
        print_head("cells", *(f"a {kind}" for kind in KINDS))
        measure(program, folder, given.cells, given.limit, progress)
    return 0


if __name__ == "__main__":
    run_main(main)
