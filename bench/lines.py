#!/usr/bin/env python3
"""Counts what one line of each kind costs, beside plain Rust (bench/plain), and prints one table.

    ./gczone prove                               # proves and builds the program
    bench/lines.py [--only WORD,..] [--count N] [--program PATH] [--plain PATH]

For each kind: the instructions of a line of both programs as valgrind counts them, and their ratio: those of a run with
N such lines (3000) less those of a run with none, by N. These are the same from run to run, whatever else the machine
does. A line is sent to a small heap of four zones, which stays in the caches. Behind a kind stands what is counted with
it, where it takes a line more, or what the line does.
"""

import sys
import tempfile
from pathlib import Path

sys.dont_write_bytecode = True
sys.path.insert(0, str(Path(__file__).resolve().parent.parent / "tools"))

from command_line import Parser, at_least, run_main  # noqa: E402 (no bytecode beside the sources)
from families import places  # noqa: E402
from progress import Progress  # noqa: E402
from speed import (  # noqa: E402
    WITHOUT_HELPERS, build_plain, count_instructions, find_program, names_of, print_head, print_row, ratio, require,
    write_trace,
)

LIMIT = 300
ZONES = 4
HEAP = [*places(ZONES), "new r0 0 8", "new r1 0 8", "hold g0 r0", "map r7 0", "wrap r4 r0 1", "put r7 r1 r0"]
# The lines of each kind: one for each time that it is counted.
KINDS = {
    "get": ["get r2 r0 3"],
    "set": ["set r0 3 r1"],
    "copy": ["copy r2 r0"],
    "drop": ["drop r2"],
    "new": ["new r2 0 3"],
    "map": ["map r2 0"],
    "wrap": ["wrap r5 r0 1"],
    "wrap, of a new object": ["new r3 1 0", "wrap r5 r3 0"],
    "unwrap": ["unwrap r5 r4"],
    "hold": ["hold g0 r0"],
    "release": ["release g1"],
    "expose": ["expose r2 g0"],
    "put": ["put r7 r1 r0"],
    "put, with a new object as the key": ["new r3 0 0", "put r7 r3 r0"],
    "find": ["find r5 r7 r1"],
    "slice, while no collection runs": ["slice 10"],
    "collect, of an empty zone": ["collect 3"],
    "collect, of four zones": ["collect 0 1 2 3"],
}


def word_of(kind):
    return kind.partition(",")[0]


def title_of(kind):
    """A kind with its word as code."""
    word = word_of(kind)
    return f"`{word}`{kind[len(word):]}"


def cost_of(command, trace, lines, count, empty):
    """The instructions of these lines together, one after another that often."""
    write_trace(trace, [*HEAP, *(lines * count)])
    return (count_instructions(command, trace, LIMIT) - empty) / count


def measure(programs, folder, kinds, count, progress):
    """Prints a row for each kind of line."""
    trace = Path(folder) / "trace"
    commands = [[program, "run", *more] for program, more in zip(programs, WITHOUT_HELPERS)]
    write_trace(trace, HEAP)
    empty = [count_instructions(command, trace, LIMIT) for command in commands]
    for kind in progress.over(kinds):
        ours, theirs = (cost_of(command, trace, KINDS[kind], count, none) for command, none in zip(commands, empty))
        print_row(title_of(kind), f"{ours:,.0f}", f"{theirs:,.0f}", ratio(ours, theirs))


def read_words():
    words = Parser(__doc__)
    words.add_argument("--only", metavar="WORD,..", help="words, with a comma between two")
    words.add_argument("--count", type=at_least(1), metavar="N", default=3000, help="lines of each kind (3000)")
    words.add_argument("--program", type=Path, metavar="PATH", help="the gczone to measure")
    words.add_argument("--plain", type=Path, metavar="PATH", help="the program to measure it against")
    return words.parse_args()


def main():
    given = read_words()
    asked = names_of(given.only, list(dict.fromkeys(map(word_of, KINDS))))
    kinds = [kind for kind in KINDS if word_of(kind) in asked]
    require("rustc", "valgrind")
    with tempfile.TemporaryDirectory() as folder, Progress("kinds", len(kinds)) as progress:
        plain = given.plain.resolve() if given.plain else build_plain(folder)
        print_head("line", "gczone", "plain Rust", "ratio")
        measure([find_program(given.program), plain], folder, kinds, given.count, progress)
    return 0


if __name__ == "__main__":
    run_main(main)
