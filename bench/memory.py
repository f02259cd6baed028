#!/usr/bin/env python3
"""Measures the memory of a cell and of a weak entry, gczone beside plain Rust (bench/plain), and prints one table.

    ./gczone prove                               # proves and builds the program
    bench/memory.py [--count N] [--program PATH] [--beside PATH]

For each kind: the resident bytes of one, which is what a program has once --count of them (1000000) are made, less what
it had before, by their number. A wrapper or an entry has a cell of its own as its target or key, whose bytes are taken
off. The keys of entries lie side by side, or one in eight slots, with seven cells between that are no keys.
"""

import sys
import tempfile
from pathlib import Path

sys.dont_write_bytecode = True
sys.path.insert(0, str(Path(__file__).resolve().parent.parent / "tools"))

from command_line import Fault, Parser, at_least, run_main  # noqa: E402 (no bytecode beside the sources)
from engines import Collector, Process, Stopped  # noqa: E402
from families import places  # noqa: E402
from latency import batches_of, name_of  # noqa: E402
from progress import Progress  # noqa: E402
from speed import WITHOUT_HELPERS, build_plain, find_program, print_head, print_row, require  # noqa: E402


def cell():
    yield "new r0 0 8"


def wrapper():
    yield "new r0 0 0"
    yield "wrap r1 r0 1"


def entry():
    yield "new r0 0 0"
    yield "put r15 r0 r0"


def lonely_entry():
    yield from entry()
    yield from ["new r1 0 0"] * 7


# The lines of one, and how many cells it has besides.
KINDS = {
    "cell": (cell, 0), "wrapper": (wrapper, 1), "weak entry, keys side by side": (entry, 1),
    "weak entry, a key in eight slots": (lonely_entry, 8),
}


def bytes_of(program, words, lines, count):
    """The resident bytes of one, by the number of them."""
    process = Process(Collector([program, "run", *words], True))
    try:
        for text, replies in batches_of(iter([*places(2), "map r15 0"])):
            process.answer(text, replies)
        before = process.memory()
        for text, replies in batches_of(line for _ in range(count) for line in lines()):
            process.answer(text, replies)
        return (process.memory() - before) / count
    except Stopped as stopped:
        raise Fault(f"{process.name} does not answer: {stopped}", 1) from None
    finally:
        process.end()


def measure(programs, count, progress):
    """Prints a row for each kind."""
    cells = []
    for kind, (lines, besides) in progress.over(KINDS.items()):
        found = [bytes_of(program, words, lines, count) for program, words in zip(programs, WITHOUT_HELPERS)]
        cells = cells or found
        print_row(kind, f"{count:,}", *(f"{size - besides * of_cell:.1f}" for size, of_cell in zip(found, cells)))


def read_words():
    words = Parser(__doc__)
    words.add_argument("--count", type=at_least(1), metavar="N", default=1_000_000, help="how many (1000000)")
    words.add_argument("--program", type=Path, metavar="PATH", help="the gczone to measure")
    words.add_argument("--beside", type=Path, metavar="PATH", help="the program beside it, in place of bench/plain")
    return words.parse_args()


def main():
    given = read_words()
    if not given.beside:
        require("rustc")
    with tempfile.TemporaryDirectory() as folder, Progress("kinds", len(KINDS)) as progress:
        programs = [find_program(given.program), find_program(given.beside) if given.beside else build_plain(folder)]
        print_head("bytes of a", "number", "gczone", name_of(given.beside))
        measure(programs, given.count, progress)
    return 0


if __name__ == "__main__":
    run_main(main)
