#!/usr/bin/env python3
"""Measures collections by two markers beside collections by one, and prints one table.

    ./gczone prove                               # proves and builds the program
    bench/markers.py [--cells N,..] [--heaps N] [--rounds N] [--only HEAP,..] [--program PATH] [--beside PATH]

A heap of --cells cells (1,000,000 and 10,000,000) is made, all of which live, and then `collect` comes --rounds times
(9), each timed by the wall clock from the line that is sent to its last reply, so with the sweeping of all arenas. The
programs with one and with two markers take turns, a round each; no helper sweeps. All of this is done --heaps times (3)
by new processes, since where the memory of a process lies decides about its caches. A figure is the median of all
rounds, in nanoseconds a cell, with the quickest in brackets. With --beside a second program, an older one say, takes
turns with them, by one marker and without the option --markers. Two markers need two free processors: say nothing of
times but what one run on one machine shows. All must write the same; the exit status is 1 if they do not.
"""

import hashlib
import random
import statistics
import subprocess
import sys
import tempfile
import threading
import time
from pathlib import Path

sys.dont_write_bytecode = True
sys.path.insert(0, str(Path(__file__).resolve().parent.parent / "tools"))

from command_line import Fault, Parser, at_least, run_main  # noqa: E402 (no bytecode beside the sources)
from engines import lists, tree  # noqa: E402
from families import places  # noqa: E402
from progress import Progress  # noqa: E402
from speed import find_program, names_of, print_head, print_row, write_trace  # noqa: E402

HELD = 6
NEW = 7
PATH = 8


def random_graph(cells):
    """Each cell has four fields that lead to cells drawn at random among those before it. An index of all cells, a tree
    with eight branches a node, is what finds them."""
    draw = random.Random("random graph").randrange
    depth = 1
    while 8 ** depth < cells:
        depth += 1
    shifts = range(3 * (depth - 1), -1, -3)
    for cell in range(cells):
        for level, shift in enumerate(shifts):
            if cell % (8 << shift) == 0:
                yield f"new r{PATH + level} 0 8"
                if level:
                    yield f"set r{PATH + level - 1} {cell >> shift + 3 & 7} r{PATH + level}"
        yield f"new r{NEW} 0 4"
        if cell > HELD:
            yield from (f"set r{NEW} {field} r{draw(HELD)}" for field in range(4))
        yield f"set r{PATH + depth - 1} {cell & 7} r{NEW}"
        held = draw(HELD) if cell >= HELD else cell
        found = draw(cell + 1)
        above = PATH
        for shift in shifts:
            yield f"get r{held} r{above} {found >> shift & 7}"
            above = held


HEAPS = {"tree": tree, "random graph": random_graph, "eight lists": lists}
MARKERS = (1, 2)
LAST = b"collected\n"
CHUNK = 1 << 20


class Running:
    """A program that has answered a trace, and waits for more lines."""

    def __init__(self, words, trace, lines):
        self.process = subprocess.Popen(words, stdin=subprocess.PIPE, stdout=subprocess.PIPE)
        self.seen = hashlib.sha256()
        feeder = threading.Thread(target=self.feed, args=(trace,), daemon=True)
        feeder.start()
        while lines:
            lines -= self.read().count(b"\n")
        feeder.join()

    def feed(self, trace):
        with open(trace, "rb") as source:
            while piece := source.read(CHUNK):
                self.process.stdin.write(piece)
        self.process.stdin.flush()

    def read(self):
        piece = self.process.stdout.read1(CHUNK)
        if not piece:
            raise Fault("the program ended too early", 1)
        self.seen.update(piece)
        return piece

    def collect(self):
        """The seconds that a collection takes."""
        start = time.perf_counter()
        self.process.stdin.write(b"collect 0\n")
        self.process.stdin.flush()
        end = b""
        while not end.endswith(LAST):
            end = (end + self.read())[-len(LAST):]
        return time.perf_counter() - start

    def finish(self):
        self.process.stdin.close()
        self.process.stdout.close()
        return self.process.wait()


def commands_of(program, beside):
    """What starts each of the programs that take turns: two markers come last."""
    run = [str(program), "run", "--helpers", "0"]
    older = [[str(beside), "run", "--helpers", "0"]] if beside else []
    return [*older, *([*run, "--markers", str(markers)] for markers in MARKERS)]


def measure(commands, folder, name, cells, given):
    """Prints the row of a heap, and answers whether all programs wrote the same."""
    trace = folder / "trace"
    lines = write_trace(trace, made(name, cells))
    times, seen = [], set()
    for _ in range(given.heaps):
        programs = [Running(words, trace, lines) for words in commands]
        times += [[running.collect() * 1e9 / cells for running in programs] for _ in range(given.rounds)]
        if any(running.finish() for running in programs):
            raise Fault("a program failed", 1)
        seen |= {running.seen.digest() for running in programs}
    *others, two = zip(*times)
    figures = (f"{statistics.median(each):.1f} ({min(each):.1f})" for each in (*others, two))
    print_row(name, f"{cells:,}", *figures, *(ratio_of(each, two) for each in others))
    return len(seen) == 1


def ratio_of(others, two):
    return f"{statistics.median(others) / statistics.median(two):.2f}"


def made(name, cells):
    yield from places(1)
    yield from HEAPS[name](cells)


def main():
    words = Parser(__doc__)
    words.add_argument("--cells", default="1000000,10000000", metavar="N,..", help="numbers of cells")
    words.add_argument("--heaps", type=at_least(1), default=3, metavar="N", help="how often each heap is made (3)")
    words.add_argument("--rounds", type=at_least(1), default=9, metavar="N", help="collections of each heap (9)")
    words.add_argument("--only", help="heaps, with a comma between two")
    words.add_argument("--program", type=Path, help="the gczone to measure")
    words.add_argument("--beside", type=Path, metavar="PATH", help="another gczone, measured by one marker")
    given = words.parse_args()
    try:
        sizes = [int(size) for size in given.cells.split(",")]
    except ValueError:
        raise Fault(f"{given.cells} is no list of numbers of cells", 2) from None
    names = names_of(given.only, HEAPS)
    with tempfile.TemporaryDirectory() as folder:
        commands = commands_of(find_program(given.program), given.beside)
        older = ["the other program: ns a cell"] if given.beside else []
        ratios = ["other to two"] if given.beside else []
        print_head("heap", "cells", *older, "one marker: ns a cell", "two markers", *ratios, "one to two")
        cases = [(name, size) for size in sizes for name in names]
        with Progress("heaps", len(cases)) as progress:
            differing = [
                case for case in progress.over(cases) if not measure(commands, Path(folder), *case, given)
            ]
    if differing:
        raise Fault(f"the outputs differ: {', '.join(f'{name} of {size:,}' for name, size in differing)}", 1)
    return 0


if __name__ == "__main__":
    run_main(main)
