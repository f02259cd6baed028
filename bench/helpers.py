#!/usr/bin/env python3
"""Measures gczone with helper threads beside gczone without, and prints one table.

    ./gczone prove                               # proves and builds the program
    bench/helpers.py [--helpers N,..] [--only CASE,..] [--program PATH]

For each case: the wall time and the processor time of a run with 0, 1, 2 and 4 helpers. The runs take turns, and of
five the quickest counts. All must write the same bytes; the exit status is 1 when they do not. Say nothing of times but
what one run on one machine shows: helpers need processors of their own.
"""

import sys
import tempfile
from pathlib import Path

sys.dont_write_bytecode = True
sys.path.insert(0, str(Path(__file__).resolve().parent.parent / "tools"))

from command_line import Fault, Parser, at_least, run_main  # noqa: E402 (no bytecode beside the sources)
from families import FAMILIES, collect, places  # noqa: E402
from progress import Progress  # noqa: E402
from speed import find_program, names_of, print_head, print_row, run_once, write_trace  # noqa: E402

TRIES = 5


def shape(family, scale):
    return lambda: FAMILIES[family](scale)


def small_collections():
    """5,000 collections of one zone with one arena, of which a cell dies: helpers have next to nothing to do."""
    yield from places(1)
    for _ in range(5_000):
        yield "new r0 0 0"
        yield from collect(1)


def large_sweeps(cells):
    """Ten times: cells are made that die at once, but for one in each arena, and a collection sweeps them."""
    def lines():
        yield from places(1)
        yield "new r0 0 1"
        for _ in range(10):
            for cell in range(cells // 10):
                yield "new r1 0 1"
                if cell % 64 == 0:
                    yield "set r1 0 r0"
                    yield "copy r0 r1"
            yield from collect(1)
    return lines


CASES = {
    "tree of 10^5": shape("tree", 0.1),
    "tree of 10^6": shape("tree", 1),
    "lists of 10^5": shape("lists", 0.1),
    "lists of 10^6": shape("lists", 1),
    "sweeps of 10^5": large_sweeps(100_000),
    "sweeps of 10^6": large_sweeps(1_000_000),
    "small collections": small_collections,
}


def measure(program, folder, name, helpers):
    """Prints the row of a case, and answers whether all runs write the same."""
    trace = folder / "trace"
    lines = write_trace(trace, CASES[name]())
    outputs = [folder / f"output.{count}" for count in helpers]
    runs = [
        [run_once(program, trace, output, more=("--helpers", str(count))) for count, output in zip(helpers, outputs)]
        for _ in range(TRIES)
    ]
    best = [tuple(map(min, zip(*of_one))) for of_one in zip(*runs)]
    print_row(name, f"{lines:,}", *(f"{figure:.3f}" for wall, spent, _ in best for figure in (wall, spent)))
    return len({output.read_bytes() for output in outputs}) == 1


def main():
    words = Parser(__doc__)
    words.add_argument("--helpers", default="0,1,2,4", metavar="N,..", help="numbers of helpers (0,1,2,4)")
    words.add_argument("--only", help="cases, with a comma between two")
    words.add_argument("--program", type=Path, help="the gczone to measure")
    given = words.parse_args()
    helpers = names_of(given.helpers, ["0", "1", "2", "3", "4"])
    names = names_of(given.only, CASES)
    with tempfile.TemporaryDirectory() as folder:
        program = find_program(given.program)
        heads = [text for count in helpers for text in (f"{count} helpers: wall s", "processor s")]
        print_head("case", "lines", *heads)
        with Progress("cases", len(names)) as progress:
            differing = [name for name in progress.over(names) if not measure(program, Path(folder), name, helpers)]
    if differing:
        raise Fault(f"the outputs differ: {', '.join(differing)}", 1)
    return 0


if __name__ == "__main__":
    run_main(main)
