#!/usr/bin/env python3
"""Measures `gczone check` beside plain Rust (bench/plain), and prints one table.

    bench/dumps.py [--scale X] [--only DUMP,..] [--program PATH] [--plain PATH]

For each kind of dump, at --scale (1, which is 3 or 4 million lines): the lines, the lines a second of processor time of
both programs, the ratio of these times, the instructions a line of both as valgrind counts them at a hundredth of that,
and the greatest memory. The programs take turns, and of three runs the quickest counts. Memory below that of this
script, up to 25 MB, cannot be told. Both must write the same. Say nothing of times but what one run on one machine
shows.
"""

import subprocess
import sys
import tempfile
from pathlib import Path

sys.dont_write_bytecode = True
sys.path.insert(0, str(Path(__file__).resolve().parent.parent / "tools"))

from command_line import Fault, Parser, run_main  # noqa: E402 (no bytecode beside the sources)
from progress import Progress  # noqa: E402
from speed import MEGABYTE, TRIES, build_plain, count_instructions, find_program, names_of  # noqa: E402
from speed import print_head, print_row, ratio, require, run_once, write_trace  # noqa: E402

LIMIT = 300


def black(names):
    return (f"cell {name} b" for name in names)


def draws():
    """Numbers below 2^31, always the same."""
    drawn = 1
    while True:
        drawn = (1103515245 * drawn + 12345) % (1 << 31)
        yield drawn


def cells(count):
    """Cells alone."""
    yield from black(range(4 * count))


def tree(count):
    """Each object is named by one before it, and names the next one."""
    yield from black(range(count + 1))
    for cell in range(count):
        yield f"edge {cell // 2} {cell}"
        yield f"edge {cell} {cell + 1}"


def gaps(count):
    """As `tree`, but each second number is left out."""
    yield from black(range(0, 2 * count + 2, 2))
    for cell in range(count):
        yield f"edge {cell // 2 * 2} {2 * cell}"
        yield f"edge {2 * cell} {2 * cell + 2}"


def far(count):
    """Two fields of each object name any objects."""
    yield from black(range(count))
    for cell, one, other in zip(range(count), draws(), draws()):
        yield f"edge {cell} {one % count}"
        yield f"edge {cell} {other % count}"


def wrappers(count):
    """As many wrappers as objects, each named by an object."""
    yield from black(range(count))
    yield from black(f"{comp}:{target}" for comp in range(4) for target in range(comp, count, 4))
    for cell in range(count):
        yield f"edge {cell} {cell % 4}:{cell}"


def entries(count):
    """An entry for each object, in a few maps."""
    yield from black(range(count + 4))
    for entry in range(2 * count):
        yield f"weak {entry // (count // 2)} {4 + entry * 7 % count} {4 + entry * 11 % count}"


DUMPS = {"cells": cells, "tree": tree, "gaps": gaps, "far": far, "wrappers": wrappers, "entries": entries}


def write_dump(path, name, scale):
    """Writes a dump, and answers how many lines it has."""
    def lines():
        yield from DUMPS[name](int(1_000_000 * scale))
        yield "end"
    return write_trace(path, lines())


def quickest(programs, dump):
    """For each program the least processor time and the least of the greatest memory; they take turns."""
    runs = [[run_once(program, dump, word="check") for program in programs] for _ in range(TRIES)]
    return [tuple(map(min, zip(*((spent, size) for _, spent, size in of_one)))) for of_one in zip(*runs)]


def said(program, dump):
    with open(dump, "rb") as source:
        return subprocess.run([program, "check"], stdin=source, capture_output=True, check=True).stdout


def measure(programs, folder, name, scale):
    """Prints the row of a kind of dump, and answers whether both programs say the same."""
    dump = folder / "dump"
    small = write_dump(dump, name, scale / 100)
    ours, theirs = (count_instructions([program, "check"], dump, LIMIT) / small for program in programs)
    lines = write_dump(dump, name, scale)
    (spent, size), (plain_spent, plain_size) = quickest(programs, dump)
    print_row(
        name,
        f"{lines:,}",
        *(f"{lines / spent / 1e6:.1f}", f"{lines / plain_spent / 1e6:.1f}", ratio(spent, plain_spent)),
        *(f"{ours:,.0f}", f"{theirs:,.0f}", ratio(ours, theirs)),
        *(f"{size / MEGABYTE:.0f}", f"{plain_size / MEGABYTE:.0f}"),
    )
    return said(programs[0], dump) == said(programs[1], dump)


def main():
    words = Parser(__doc__)
    words.add_argument("--scale", type=float, default=1, help="how large the dumps are (1)")
    words.add_argument("--only", help="kinds of dumps, with a comma between two")
    words.add_argument("--program", type=Path, help="the gczone to measure")
    words.add_argument("--plain", type=Path, help="the program to measure it against, in place of bench/plain")
    given = words.parse_args()
    names = names_of(given.only, DUMPS)
    require("rustc", "valgrind")
    with tempfile.TemporaryDirectory() as folder:
        programs = [find_program(given.program), given.plain or build_plain(folder)]
        millions = "million lines a second"
        print_head("dump", "lines", millions, "plain", "ratio", "instructions a line", "plain", "ratio", "MB", "plain")
        with Progress("dumps", len(names)) as progress:
            named = progress.over(names)
            differing = [name for name in named if not measure(programs, Path(folder), name, given.scale)]
    if differing:
        raise Fault(f"the outputs differ: {', '.join(differing)}", 1)
    return 0


if __name__ == "__main__":
    run_main(main)
