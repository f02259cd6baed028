#!/usr/bin/env python3
"""Measures how long each line of a session takes, gczone beside plain Rust (bench/plain), and prints two tables.

    ./gczone prove                               # proves and builds the program
    bench/latency.py [--cells N,..] [--units N] [--rounds N] [--seed N] [--json] [--plot FILE]
                     [--program PATH] [--beside PATH]

A session goes over pipes, and each line is sent once the line before has its answer. First it makes a heap of --cells
cells (100000,1000000): half of them in trees in zone 0, half in eight lists in zone 1, of which four are gray, with
wrappers, weak entries, and a tenth of all cells dead. Then come `gc 0 1`, and by turns `slice 100` (--units), `get`, a
step down a tree, `set`, which writes a new cell over a leaf there, and `new`, until the collection is over; and at last
`expose` of each gray list. These lines are measured.

For each kind of line: how many there are, in microseconds the time that half of them do not exceed (p50), 99 of 100
(p99) and 999 of 1,000 (p99.9), if any line took longer, and the longest time. Slices in which a group ends are counted
among all slices, and once more by themselves; how many gray names these wrote in the first round stands below. The
first table has the processor time of the program, until it sleeps again, by the system's clock for that process; the
second one the wall time, until its answer is read. With --json both are one JSON object, and --plot draws the processor
times (SVG).

The programs take turns: in each of --rounds rounds (3) both have the same heap, drawn by --seed (1) and the number of
the round. A figure is the median of the rounds. gczone runs with `--helpers 0`. Both programs must give the same
replies to commands; the exit status is 1 when they do not. Say nothing of times but what one run on one machine shows.
"""

import html
import itertools
import json
import math
import os
import random
import statistics
import sys
import tempfile
import time
from argparse import ArgumentTypeError
from pathlib import Path

sys.dont_write_bytecode = True
sys.path.insert(0, str(Path(__file__).resolve().parent.parent / "tools"))

from command_line import Fault, Parser, at_least, run_main  # noqa: E402 (no bytecode beside the sources)
from engines import PAUSE, Collector, Process, Stopped, text_of  # noqa: E402
from families import grow, places  # noqa: E402
from progress import Progress  # noqa: E402
from speed import WITHOUT_HELPERS, build_plain, find_program, print_head, print_row, require  # noqa: E402
from trace_model import is_last  # noqa: E402

LEAST_CELLS = 2_000
BRANCHES, LEVELS = 4, 5
TREE = 2 * sum(BRANCHES**level for level in range(LEVELS))  # Each of its cells has a leaf of its own.
LISTS, GRAY = range(6, 14), 4
# How many lines have answers that fit into a pipe.
BATCH = 2_000
PATIENCE = 20
# A collection does fewer units than four times its cells.
SPARE = 100
THOUSANDTHS = {"p50": 500, "p99": 990, "p99.9": 999}
CLOCKS = ("processor", "wall")
ENDS = ", a group ends"


def trees(count):
    """Complete trees in a list that r0 holds; each of their cells has four branches and a leaf."""
    def grown(level):
        yield f"new r{level} 0 {BRANCHES + 1}"
        yield "new r15 0 0"
        yield f"set r{level} {BRANCHES} r15"
        if level < LEVELS:
            for field in range(BRANCHES):
                yield from grown(level + 1)
                yield f"set r{level} {field} r{level + 1}"

    yield "new r0 0 2"
    for _ in range(count):
        yield from grown(1)
        yield from grow(0, size=2)
        yield "set r0 1 r1"


def lists(count, draw):
    """Eight lists that grow by turns at random. Each tenth cell has a wrapper, each tenth is the key of an entry, and
    behind each third one is made that dies."""
    yield "map r14 1"
    yield from (f"new r{register} 1 2" for register in LISTS)
    for index in range(count):
        register = LISTS[draw(len(LISTS))]
        yield from grow(register, size=2, comp=1)
        if index % 10 == 0:
            yield "new r1 0 0"
            yield "wrap r2 r1 1"
            yield f"set r{register} 1 r2"
        if index % 10 == 5:
            yield "new r1 1 0"
            yield f"put r14 r{register} r1"
        if index % 3 == 0:
            yield "new r1 1 0"
    for slot in range(GRAY):
        yield f"hold g{slot} r{LISTS[slot]}"
        yield f"drop r{LISTS[slot]}"


def trees_of(cells):
    return cells // 2 // TREE


def heap(cells, draw):
    """The lines that make the heap. Then r0 holds the list of trees, r2 the last tree and r3 a new cell."""
    yield from places(2)
    yield from trees(trees_of(cells))
    yield from lists(cells * 3 // 10, draw)
    yield from (f"drop r{register}" for register in (1, 4, 5, 15))
    yield "get r2 r0 1"
    yield "new r3 0 1"


def walk(count, draw):
    """Goes down one tree of the list after another, in r2, by branches that are drawn."""
    while True:
        yield "copy r1 r0"
        for _ in range(count):
            yield "get r2 r1 1"
            yield from (f"get r2 r2 {draw(BRANCHES)}" for _ in range(LEVELS - 1))
            yield "get r1 r1 0"


class Session(Process):
    """A program that gets a line once it has answered the one before."""

    def __init__(self, program, words):
        super().__init__(Collector([program, "run", *words], True))
        self.seconds, self.replies, self.grays = {}, [], []

    def make(self, batches):
        for text, count in batches:
            self.answer(text, count)

    def ask(self, line, kind):
        """The output lines of a line, whose times are kept under its kind."""
        spent, began = time.clock_gettime(self.clock), time.perf_counter()
        self.child.stdin.write(line.encode() + b"\n")
        self.child.stdin.flush()
        own = self.output_of(line)
        wall = time.perf_counter() - began
        self.note(kind, self.clock_after(spent) - spent, wall)
        return own

    def clock_after(self, spent):
        """Its processor time once it sleeps. The system counts it when the program leaves the processor, which may be a
        moment after it says that it sleeps."""
        while not self.sleeps():
            os.sched_yield()
        for _ in range(PATIENCE):
            now = time.clock_gettime(self.clock)
            if now > spent:
                break
            time.sleep(PAUSE)
        return now

    def output_of(self, line):
        own = []
        while not own or not is_last(line, own[-1]):
            told = self.child.stdout.readline()
            if not told:
                self.tell_why()
            own.append(told.decode(errors="replace").rstrip("\n"))
        return own

    def note(self, kind, *times):
        for clock, seconds in zip(CLOCKS, times):
            self.seconds.setdefault(kind, {name: [] for name in CLOCKS})[clock].append(seconds)

    def command(self, line):
        self.replies.append(self.ask(line, line.split(" ")[0])[-1])

    def slice(self, units):
        """Whether the collection goes on after a slice."""
        kind = f"slice {units}"
        own = self.ask(kind, kind)
        ended = [line.partition(" gray ")[2].split(" ") for line in own if line.startswith("ended ")]
        if ended:
            self.note(kind + ENDS, *(self.seconds[kind][clock][-1] for clock in CLOCKS))
            self.grays += [len(names) if names != ["-"] else 0 for names in ended]
        return "done" not in own and own[-1] != "idle"

    def collect(self, steps, units, limit):
        """A collection by slices, with a step, a `set` and a `new` behind each."""
        self.command("gc 0 1")
        for step in itertools.islice(steps, limit):
            if not self.slice(units):
                return
            self.command(step)
            self.command(f"set r2 {BRANCHES} r3")
            self.command("new r3 0 1")
        raise Fault(f"the collection of {self.name} is not over after {limit} slices", 1)

    def measure(self, cells, units, draw):
        self.collect(walk(trees_of(cells), draw), units, SPARE + 4 * cells // units)
        for slot in range(GRAY):
            self.command(f"expose r1 g{slot}")


def run_session(program, words, batches, cells, units, draw):
    """The session of a program, once it is over."""
    session = Session(program, words)
    try:
        session.make(batches)
        session.measure(cells, units, draw)
    except BrokenPipeError:
        raise Fault(f"{session.name} has closed its input", 1) from None
    except Stopped as stopped:
        raise Fault(f"{session.name} does not answer: {stopped}", 1) from None
    finally:
        session.end()
    return session


def batches_of(lines):
    """Texts of some lines each, and how many."""
    while batch := list(itertools.islice(lines, BATCH)):
        yield text_of(batch), len(batch)


def agree(sessions):
    """Whether the programs gave the same replies to commands, for as long as both were collecting."""
    ours, theirs = (session.replies[:-GRAY] for session in sessions)
    return all(a == b for a, b in zip(ours, theirs)) and sessions[0].replies[-GRAY:] == sessions[1].replies[-GRAY:]


def ranks(seconds):
    """For each part the microseconds that it does not exceed, None if none of these values is longer; the longest."""
    values = sorted(1e6 * each for each in seconds)
    places_of = {name: max(-(-len(values) * part // 1000), 1) - 1 for name, part in THOUSANDTHS.items()}
    found = {name: values[at] if at + 1 < len(values) else None for name, at in places_of.items()}
    return {**found, "longest": values[-1]}


def median(values):
    return None if None in values else statistics.median(values)


def kinds_of(units):
    return ["gc", f"slice {units}", f"slice {units}{ENDS}", "get", "set", "new", "expose"]


def figures(rounds):
    """The medians of some rounds in which there were lines of a kind."""
    found = {"lines": statistics.median_low(len(seconds[CLOCKS[0]]) for seconds in rounds)}
    for clock in CLOCKS:
        each = [ranks(seconds[clock]) for seconds in rounds]
        found[clock] = {name: median([one[name] for one in each]) for name in each[0]}
    return found


def figures_by_kind(rounds, units):
    by_kind = {kind: [seconds[kind] for seconds in rounds if kind in seconds] for kind in kinds_of(units)}
    return {kind: figures(of_kind) for kind, of_kind in by_kind.items() if of_kind}


class Bench:
    def __init__(self, programs, given):
        """The programs by name, ours first, and what to measure."""
        self.programs, self.given = programs, given
        self.rounds = {cells: {name: [] for name in programs} for cells in given.cells}
        self.grays, self.differing = {}, []

    def run(self):
        todo = list(itertools.product(self.given.cells, range(self.given.rounds)))
        with Progress("sessions", len(todo) * len(self.programs)) as progress:
            for done, (cells, number) in enumerate(todo):
                progress.note = f"{cells:,} cells"
                self.run_round(cells, number, progress, done)

    def run_round(self, cells, number, progress, done):
        seed = f"{self.given.seed} {number}"
        batches = list(batches_of(heap(cells, random.Random(seed).randrange)))
        sessions = []
        for (name, program), words in zip(self.programs.items(), WITHOUT_HELPERS):
            draw = random.Random(seed).randrange
            sessions.append(run_session(program, words, batches, cells, self.given.units, draw))
            self.rounds[cells][name].append(sessions[-1].seconds)
            progress.tell(done * len(self.programs) + len(sessions))
        self.grays.setdefault(cells, sessions[0].grays)
        if not agree(sessions):
            self.differing.append(f"{cells:,} cells, round {number + 1}")

    def found(self):
        """All figures: by heap, program and kind of line."""
        return {
            cells: {name: figures_by_kind(rounds, self.given.units) for name, rounds in programs.items()}
            for cells, programs in self.rounds.items()
        }

    def print_tables(self):
        found, beside = self.found(), list(self.programs)[1]
        for clock in CLOCKS:
            print(f"{clock.capitalize()} time, microseconds:\n")
            names = [*THOUSANDTHS, "longest"]
            print_head("cells", "line", "lines", *names, f"{beside}: {names[0]}", *names[1:])
            for cells, programs in found.items():
                print_rows(cells, *programs.values(), clock)
            print()
        for cells, counts in self.grays.items():
            print(f"Gray names at the ends of groups, {cells:,} cells: {', '.join(f'{count:,}' for count in counts)}.")

    def text(self):
        """The figures as JSON, in microseconds."""
        heaps = [
            {"cells": cells, "gray_names": self.grays[cells], "programs": programs}
            for cells, programs in self.found().items()
        ]
        given = {name: getattr(self.given, name) for name in ("units", "rounds", "seed")}
        return json.dumps({**given, "heaps": heaps}, indent=2)


def print_rows(cells, ours, theirs, clock):
    for kind in (kind for kind in ours if kind in theirs):
        line, *more = kind.partition(ENDS)
        times = [value for kinds in (ours, theirs) for value in kinds[kind][clock].values()]
        print_row(f"{cells:,}", f"`{line}`{''.join(more)}", f"{ours[kind]['lines']:,}", *map(tell, times))


def tell(microseconds):
    """A time with two digits at least."""
    if microseconds is None:
        return "-"
    return f"{microseconds:.1f}" if microseconds < 10 else f"{microseconds:,.0f}"


class Plot:
    """The processor times of all rounds, as SVG: a panel a heap, in which each curve ascends to the longest line.

    Both scales go by powers of ten: to the right how few lines take longer, upwards the time.
    """

    WIDTH, HEIGHT, LEFT, TOP, FOOT, STEPS = 360, 260, 60, 64, 40, 120
    FILLS = ("#3060a0", "#a04000")
    COMMANDS = ("get", "set", "new")

    def __init__(self, rounds, units):
        self.rounds, self.names = rounds, list(next(iter(rounds.values())))
        self.kinds = {f"slice {units}": ((f"slice {units}",), "none"), "commands": (self.COMMANDS, "3 3")}
        self.panels = {
            cells: [(name, label, self.values(of_program, kinds)) for name, of_program in programs.items()
                    for label, (kinds, _) in self.kinds.items()]
            for cells, programs in rounds.items()
        }
        every = [values for curves in self.panels.values() for _, _, values in curves]
        self.powers = math.log10(max(map(len, every)))
        self.low = math.floor(math.log10(min(values[0] for values in every)))
        self.high = math.ceil(math.log10(max(values[-1] for values in every)))

    @staticmethod
    def values(rounds, kinds):
        """The times of lines of some kinds, ascending, in microseconds, one at least."""
        times = (seconds[kind]["processor"] for seconds in rounds for kind in kinds if kind in seconds)
        return sorted(max(1e6 * each, 1) for of_kind in times for each in of_kind)

    def x(self, power):
        return round(self.WIDTH * power / max(self.powers, 1), 1)

    def y(self, microseconds):
        part = (math.log10(microseconds) - self.low) / max(self.high - self.low, 1)
        return round(self.TOP + self.HEIGHT * (1 - part), 1)

    def points(self, values):
        """A curve: at each step to the right the time that all but a lesser part of the lines do not exceed."""
        count = len(values)
        steps = (10 ** (step * self.powers / self.STEPS) for step in range(self.STEPS + 1))
        places_of = sorted({min(int(count - count / step), count - 1) for step in steps} | {count - 1})
        return " ".join(f"{self.x(math.log10(count / (count - at)))},{self.y(values[at])}" for at in places_of)

    def grid(self):
        for power in range(self.low, self.high + 1):
            y = self.y(10**power)
            yield f'<line x1="0" y1="{y}" x2="{self.WIDTH}" y2="{y}" stroke="#dddddd"/>'
            yield f'<text x="-6" y="{y + 4}" text-anchor="end">{10**power:g}</text>'
        bottom = self.TOP + self.HEIGHT
        for share in ("50", "90", "99", "99.9", "99.99", "99.999"):
            power = -math.log10(1 - float(share) / 100)
            if power <= self.powers:
                x = self.x(power)
                yield f'<line x1="{x}" y1="{self.TOP}" x2="{x}" y2="{bottom}" stroke="#eeeeee"/>'
                yield f'<text x="{x}" y="{bottom + 16}" text-anchor="middle">{share} %</text>'

    def panel(self, at, cells):
        left = self.LEFT + at * (self.WIDTH + self.LEFT)
        yield f'<g transform="translate({left} 0)">'
        yield f'<text x="0" y="{self.TOP - 10}">{cells:,} cells</text>'
        yield from self.grid()
        for name, label, values in self.panels[cells]:
            fill, dashes = self.FILLS[self.names.index(name)], self.kinds[label][1]
            stroke = f'stroke="{fill}" stroke-width="1.5" stroke-dasharray="{dashes}"'
            title = f"<title>{html.escape(name)}, {label}</title>"
            yield f'<polyline points="{self.points(values)}" fill="none" {stroke}>{title}</polyline>'
        yield "</g>"

    def svg(self):
        width = self.LEFT + len(self.panels) * (self.WIDTH + self.LEFT)
        height = self.TOP + self.HEIGHT + self.FOOT
        parts = [
            f'<svg xmlns="http://www.w3.org/2000/svg" width="{width}" height="{height}"',
            ' font-family="sans-serif" font-size="11">',
            f'<rect width="{width}" height="{height}" fill="white"/>',
            '<text x="8" y="16">microseconds of processor time, over the share of lines that take no longer</text>',
            f'<text x="8" y="32">whole: {next(iter(self.kinds))}; dashed: {", ".join(self.COMMANDS)}</text>',
        ]
        for at, (name, fill) in enumerate(zip(self.names, self.FILLS)):
            parts.append(f'<text x="{240 + 90 * at}" y="32" fill="{fill}">{html.escape(name)}</text>')
        for at, cells in enumerate(self.panels):
            parts += self.panel(at, cells)
        return "\n".join([*parts, "</svg>", ""])


def cells_of(text):
    """The numbers of cells that a list with commas names."""
    numbers = text.split(",")
    if not all(number.isdecimal() and int(number) >= LEAST_CELLS for number in numbers):
        raise ArgumentTypeError(f"'{text}' is no list of numbers from {LEAST_CELLS} on")
    return list(dict.fromkeys(map(int, numbers)))


def read_words():
    words = Parser(__doc__)
    words.add_argument("--cells", type=cells_of, metavar="N,..", default=[100_000, 1_000_000],
                       help="how many cells (100000,1000000)")
    words.add_argument("--units", type=at_least(1), metavar="N", default=100, help="the units of a slice (100)")
    words.add_argument("--rounds", type=at_least(1), metavar="N", default=3, help="how many rounds (3)")
    words.add_argument("--seed", type=at_least(0), metavar="N", default=1, help="what the heaps are drawn by (1)")
    words.add_argument("--json", action="store_true", help="print a JSON object in place of the tables")
    words.add_argument("--plot", metavar="FILE", help="draw the processor times (SVG)")
    words.add_argument("--program", type=Path, metavar="PATH", help="the gczone to measure")
    words.add_argument("--beside", type=Path, metavar="PATH", help="the program beside it, in place of bench/plain")
    return words.parse_args()


def name_of(beside):
    if beside is None:
        return "plain Rust"
    return "the other gczone" if beside.name == "gczone" else beside.name


def main():
    given = read_words()
    if not given.beside:
        require("rustc")
    with tempfile.TemporaryDirectory() as folder:
        ours = find_program(given.program)
        beside = find_program(given.beside) if given.beside else build_plain(folder)
        bench = Bench({"gczone": ours, name_of(given.beside): beside}, given)
        bench.run()
    if given.plot:
        Path(given.plot).write_text(Plot(bench.rounds, given.units).svg(), encoding="utf-8")
    if given.json:
        print(bench.text())
    else:
        bench.print_tables()
    if bench.differing:
        raise Fault(f"the programs reply otherwise: {', '.join(bench.differing)}", 1)
    return 0


if __name__ == "__main__":
    run_main(main)
