#!/usr/bin/env python3
"""Measures collections of the same heaps by gczone, SpiderMonkey, the Boehm collector and OCaml, and prints two tables.

    apt-get install libmozjs-102-dev libgc-dev ocaml-nox pkg-config g++ make valgrind
    bench/engines.py [--cells N] [--rounds N] [--only HEAP,..] [--times] [--program PATH]

A heap is a trace that all four answer (bench/collectors has the three others). In each of --rounds rounds (7) a program
makes the cells and collects once. Then, timed, it collects while all cells live, and twice when nothing holds them any
more: the first time OCaml ends a cycle that began before, and a stale pointer may keep cells of Boehm's. The time is
that of the processor, of all threads of the program, by the system's clock for that process. It is read before the line
that collects is sent, and again when the program has answered; so it has nothing of the making of the cells. The
programs take turns, a round each. A figure is the median of the rounds, with the middle half of them in brackets. Two
figures whose middle halves overlap are not told apart, and are named below the table; so are figures for which less
than half a second was measured in all.

The memory of a cell is what was resident after the first collection, less what was before the cells were made.

Instructions are counted by valgrind, at 2^14 cells: of a run with more collections less one with fewer, and less what
as many take of a heap without cells. They are the same whatever else the machine does, where a program does the same
twice. Without valgrind, or with --times, there are none.

Times are those of one machine. A collector that has no such cells has no numbers there. The exit status is 1 if a
program is missing or fails.
"""

import contextlib
import fcntl
import itertools
import math
import os
import random
import shutil
import statistics
import subprocess
import sys
import tempfile
import termios
import threading
import time
from concurrent.futures import ThreadPoolExecutor
from pathlib import Path
from typing import NamedTuple

sys.dont_write_bytecode = True
TOP = Path(__file__).resolve().parent.parent
sys.path.insert(0, str(TOP / "tools"))

from command_line import Fault, Parser, at_least, program_of, run_main  # noqa: E402 (no bytecode beside the sources)
from families import collect, drop_all, grow, places  # noqa: E402
from progress import Progress  # noqa: E402
from speed import count_instructions, names_of, print_head, print_row, write_trace  # noqa: E402

COLLECTORS = TOP / "bench/collectors"
NOT_SERVED = 3
LIMIT = 300
ENOUGH = 0.5
PAUSE = 0.0005
MORE = 4
TWICE = 2
COUNTED_CELLS = 1 << 14
TREE_DEPTH = 14
HELD = 14
BESIDE = {
    "gczone": "two colours, weak entries and wrappers; reads commands, and writes a line for each arena that it sweeps"
              " with the names of its dead cells; one thread",
    "SpiderMonkey": "two colours, weak entries and wrappers; objects have a shape, and wrappers and maps are script"
                    " objects; dead cells are swept by helper threads",
    "Boehm": "one colour; finds pointers in stacks, registers and data by their looks; one thread marks; sweeps later,"
             " as cells are made",
    "OCaml": "one colour; cells are made in a minor heap and move to the major one; weak entries are ephemerons;"
             " collects by slices while cells are made",
}


def tree(cells):
    """Complete binary trees, made depth first, in a list. A cell has two fields, here and below."""
    def grown(depth, register):
        yield f"new r{register} 0 2"
        if depth > 1:
            for field in range(2):
                yield from grown(depth - 1, register + 1)
                yield f"set r{register} {field} r{register + 1}"
    yield "new r14 0 2"
    for _ in range(cells >> TREE_DEPTH):
        yield from grown(TREE_DEPTH, 0)
        yield from grow(14, size=2)
        yield "set r14 1 r0"


def lists(cells):
    """Eight lists that grow by turns at random, so that neighbours lie apart."""
    draw = random.Random("lists").randrange
    yield from (f"new r{register} 0 2" for register in range(8))
    for _ in range(cells):
        yield from grow(draw(8), size=2)


def graph(cells):
    """Each cell leads to two of the 14 held ones, and takes the place of the first."""
    draw = random.Random("graph").randrange
    yield from (f"new r{register} 0 2" for register in range(HELD))
    for _ in range(cells):
        first, second = draw(HELD), draw(HELD)
        yield "new r15 0 2"
        yield f"set r15 0 r{first}"
        yield f"set r15 1 r{second}"
        yield f"copy r{first} r15"


def entries(cells):
    """Entries of one map, whose keys stand in a list; counted by entries."""
    yield "map r0 0"
    yield "new r1 0 2"
    for _ in range(cells):
        yield from grow(1, size=2)
        yield "new r2 0 2"
        yield "put r0 r1 r2"


def chain(cells):
    """Entries of one map, each value the key of the next, of which the first alone is held; counted by entries."""
    yield "map r0 0"
    yield "new r1 0 2"
    yield "copy r2 r1"
    for _ in range(cells):
        yield "new r3 0 2"
        yield "put r0 r2 r3"
        yield "copy r2 r3"
    yield "drop r2"
    yield "drop r3"


def wrappers(cells):
    """A list of cells in one zone, each with a wrapper of a cell in another; counted by wrappers."""
    yield "new r0 0 2"
    for _ in range(cells):
        yield "new r1 1 2"
        yield "wrap r2 r1 0"
        yield from grow(0, size=2)
        yield "set r0 1 r2"


class Heap(NamedTuple):
    lines: object
    zones: int
    part: int = 1  # of the cells that are asked for


HEAPS = {
    "tree": Heap(tree, 1), "lists": Heap(lists, 1), "random graph": Heap(graph, 1), "weak entries": Heap(entries, 1, 4),
    "weak chain": Heap(chain, 1, 10), "wrappers": Heap(wrappers, 2, 4),
}


class Collector(NamedTuple):
    command: list
    says_so: bool  # whether it writes a line once it has collected


class Stopped(Exception):
    """A program ended before it had answered: it has no such cells, or took too long."""


class Process:
    """A program that answers a trace, and the clock of its processor time."""

    def __init__(self, collector):
        self.name = Path(collector.command[0]).name
        self.says_so = collector.says_so
        output = subprocess.PIPE if self.says_so else subprocess.DEVNULL
        self.child = subprocess.Popen(collector.command, stdin=subprocess.PIPE, stdout=output)
        # The number of the clock of another process, as clock_getcpuclockid of the C library makes it.
        self.clock = ~self.child.pid << 3 | 2
        self.late = False

    def answer(self, text, collections=1):
        """Gives it this text, of which this many lines collect, also the last one, and waits until it is done."""
        timer = threading.Timer(LIMIT, self.stop)
        timer.start()
        try:
            self.child.stdin.write(text)
            self.child.stdin.flush()
            if self.says_so:
                self.read_lines(collections)
            else:
                self.wait_until_it_reads()
        except BrokenPipeError:
            self.tell_why()
        finally:
            timer.cancel()

    def read_lines(self, count):
        for _ in range(count):
            if not self.child.stdout.readline():
                self.tell_why()

    def wait_until_it_reads(self):
        """Waits until it has taken all text, and then sleeps: it has one thread, so it waits for more."""
        while True:
            has_all = self.has_all()
            if self.sleeps() and has_all:
                return
            time.sleep(PAUSE)

    def has_all(self):
        return not any(fcntl.ioctl(self.child.stdin, termios.FIONREAD, bytes(4)))

    def sleeps(self):
        state = self.field("stat").rpartition(")")[2].split()[0]
        if state in "ZX":
            self.tell_why()
        return state == "S"

    def field(self, name):
        return Path(f"/proc/{self.child.pid}/{name}").read_text(encoding="ascii", errors="replace")

    def tell_why(self):
        status = self.child.wait()
        if status == NOT_SERVED:
            raise Stopped("-")
        if self.late:
            raise Stopped(f"over {LIMIT} s")
        raise Fault(f"{self.name} ended with status {status}", 1)

    def spent(self, text, collections=1):
        """The processor seconds that it takes for this text."""
        before = time.clock_gettime(self.clock)
        self.answer(text, collections)
        return time.clock_gettime(self.clock) - before

    def memory(self):
        """Its resident bytes, but for those of files, which the system takes away when it likes."""
        return next(1024 * int(line.split()[1]) for line in self.field("status").splitlines() if line[:8] == "RssAnon:")

    def stop(self):
        self.late = True
        self.child.kill()

    def end(self):
        self.child.kill()
        for stream in (self.child.stdin, self.child.stdout):
            # What is still held back for a program that ended cannot be sent.
            with contextlib.suppress(BrokenPipeError):
                if stream:
                    stream.close()
        self.child.wait()


def text_of(*parts):
    return "".join(line + "\n" for part in parts for line in part).encode()


class Rounds:
    """A heap in one program: the seconds of each round, or why there are none."""

    def __init__(self, collector, heap, count, rounds):
        self.process = Process(collector)
        self.count, self.rounds, self.repeat = count, rounds, 0
        self.live, self.dead, self.size, self.lacks = [], [], 0, None
        self.collect = text_of(collect(1, heap.zones))
        self.die = text_of(drop_all(), collect(TWICE, heap.zones))
        self.begin = text_of(places(heap.zones), collect(1, heap.zones))

    def go(self, cells):
        """One round."""
        try:
            if not self.live:
                self.process.answer(self.begin)
                self.size = -self.process.memory()
            self.process.answer(cells)
            if not self.live:
                self.size += self.process.memory()
                once = self.process.spent(self.collect)
                self.repeat = max(1, math.ceil(ENOUGH / self.rounds / once))
            self.live.append(self.process.spent(self.collect * self.repeat, self.repeat) / self.repeat)
            self.dead.append(self.process.spent(self.die, TWICE))
        except Stopped as stopped:
            self.lacks = str(stopped)

    def figures(self):
        return {"live": Figure(self.live, self.repeat, self.count), "dead": Figure(self.dead, 1, self.count)}


class Figure:
    """Nanoseconds a cell: the median of some rounds, and their middle half."""

    def __init__(self, seconds, repeat, count):
        self.measured = sum(seconds) * repeat
        cells = [1e9 * each / count for each in seconds]
        self.low, self.middle, self.high = statistics.quantiles(cells, method="inclusive") if cells[1:] else cells * 3

    def __str__(self):
        digits = 1 if self.middle < 1000 else 0
        return f"{self.middle:,.{digits}f} ({self.low:,.{digits}f} to {self.high:,.{digits}f})"

    def is_like(self, other):
        return self.low <= other.high and other.low <= self.high


class Counts:
    """Instructions of collections under valgrind."""

    def __init__(self, folder):
        self.folder, self.numbers = folder, itertools.count()

    def run(self, command, *parts):
        trace = self.folder / f"counted-{next(self.numbers)}"
        write_trace(trace, (line for part in parts for line in part))
        return count_instructions(command, trace, LIMIT)

    def count(self, command, heap, count):
        """Instructions a cell of a collection in which all cells live, and of two when all are dead."""
        def collected(cells, *behind):
            return self.run(command, places(heap.zones), heap.lines(cells), collect(1, heap.zones), *behind)
        more = collect(MORE, heap.zones)
        runs = [collected(0), collected(0, collect(MORE, heap.zones)), collected(count), collected(count, more),
                collected(count, drop_all(), collect(TWICE, heap.zones))]
        if None in runs:
            return "-", "-"
        empty, empty_more, once, often, dead = runs
        nothing = (empty_more - empty) / MORE
        return [f"{each / count:,.0f}" for each in ((often - once) / MORE - nothing, dead - once - TWICE * nothing)]


class Bench:
    def __init__(self, collectors, counts, cells, rounds):
        self.collectors, self.counts, self.cells, self.rounds = collectors, counts, cells, rounds
        self.alike, self.short = [], []

    def time(self, heap):
        """The rounds of each collector, which take turns."""
        count = self.cells // heap.part
        cells = text_of(heap.lines(count), collect(1, heap.zones))
        runs = {name: Rounds(collector, heap, count, self.rounds) for name, collector in self.collectors.items()}
        try:
            for _ in range(self.rounds):
                for run in runs.values():
                    if run.lacks is None:
                        run.go(cells)
        finally:
            for run in runs.values():
                run.process.end()
        return runs

    def count(self, heap, names):
        """The instructions of each collector."""
        if self.counts is None:
            return {name: ("-", "-") for name in names}
        count = max(1, min(self.cells, COUNTED_CELLS) // heap.part)
        with ThreadPoolExecutor(os.cpu_count()) as pool:
            jobs = {name: pool.submit(self.counts.count, self.collectors[name].command, heap, count) for name in names}
            return {name: job.result() for name, job in jobs.items()}

    def measure(self, name):
        """Prints a row for each collector."""
        heap = HEAPS[name]
        runs = self.time(heap)
        figures = {collector: run.figures() for collector, run in runs.items() if run.lacks is None}
        counts = self.count(heap, list(figures))
        for collector, run in runs.items():
            if run.lacks:
                print_row(name, f"{run.count:,}", collector, run.lacks, *["-"] * 4)
                continue
            live, dead = figures[collector].values()
            live_count, dead_count = counts[collector]
            print_row(name, f"{run.count:,}", collector, live, live_count, dead, dead_count,
                      f"{run.size / run.count:.0f}")
        self.note(name, figures)

    def note(self, name, figures):
        """Keeps which figures are not told apart, and which were measured for too short a time."""
        for what in ("live", "dead"):
            for one, other in itertools.combinations(figures, 2):
                if figures[one][what].is_like(figures[other][what]):
                    self.alike.append(f"{name}, {what}: {one} and {other}")
            for one in figures:
                if figures[one][what].measured < ENOUGH:
                    self.short.append(f"{name}, {what}: {one} ({figures[one][what].measured:.2f})")

    def print_notes(self):
        print(f"\nNot told apart: {'; '.join(self.alike) or 'none'}.")
        print(f"\nMeasured for less than {ENOUGH} s in all (seconds): {'; '.join(self.short) or 'none'}.")


def build():
    """Builds the other collectors' programs."""
    made = subprocess.run(["make", "-s", "-C", COLLECTORS], stderr=subprocess.PIPE, text=True, check=False)
    if made.returncode:
        raise Fault(made.stderr.strip().splitlines()[0], 1)


def print_collectors():
    print_row("collector", "what it does beside")
    print_row("---", "---")
    for collector, beside in BESIDE.items():
        print_row(collector, beside)


def parse():
    parser = Parser(__doc__)
    parser.add_argument("--cells", type=at_least(1 << TREE_DEPTH), default=1 << 22,
                        help="how many cells (2^22); a quarter of it in entries and wrappers, a tenth in chains")
    parser.add_argument("--rounds", type=at_least(1), default=7, help="how many rounds (7)")
    parser.add_argument("--only", help="heaps, with a comma between two")
    parser.add_argument("--times", action="store_true", help="without instructions")
    parser.add_program()
    given = parser.parse_args()
    given.names = names_of(given.only, HEAPS)
    return given


def main():
    given = parse()
    build()
    collectors = {"gczone": Collector([program_of(given.program), "run", "--helpers", "0"], False)}
    others = {"SpiderMonkey": "spidermonkey", "Boehm": "boehm", "OCaml": "ocaml"}
    collectors |= {name: Collector([COLLECTORS / "out" / program], True) for name, program in others.items()}
    print_head("heap", "cells", "collector", "all live: ns a cell", "instructions", "all dead: ns a cell",
               "instructions", "bytes a cell")
    with tempfile.TemporaryDirectory() as folder:
        counts = Counts(Path(folder)) if shutil.which("valgrind") and not given.times else None
        bench = Bench(collectors, counts, given.cells, given.rounds)
        with Progress("heaps", len(given.names)) as progress:
            for name in progress.over(given.names):
                bench.measure(name)
    bench.print_notes()
    print()
    print_collectors()
    return 0


if __name__ == "__main__":
    run_main(main)
