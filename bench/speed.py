#!/usr/bin/env python3
"""Measures gczone beside plain Rust (bench/plain), and prints one table.

    ./gczone prove                               # proves and builds the program
    bench/speed.py [--time] [--scale X,..] [--only FAMILY,..] [--program PATH] [--plain PATH]

For each family of traces (bench/families.py) and each scale (0.02 and 0.32): the lines, the instructions a line of
both programs as valgrind counts them (less those of a run on one line), and their ratio. These are the same from run
to run, whatever else the machine does. Where a program takes longer than --limit seconds under valgrind (300) there are
no numbers, and the outputs are not compared.

With --time: wall time, processor time and greatest memory of both programs at scale 1, and the ratios. The programs
take turns, and of three runs the quickest counts. Memory below that of this script, up to 25 MB, cannot be told. Say
nothing of times but what one run on one machine shows.

gczone runs with `--helpers 0`. Both programs must write the same bytes, but for the number of a `slice`; where commands
come between slices, the same replies. The exit status is 1 when they do not. valgrind and rustc must be there.
"""

import itertools
import os
import re
import shutil
import subprocess
import sys
import tempfile
import time
from argparse import ArgumentTypeError
from pathlib import Path

sys.dont_write_bytecode = True
TOP = Path(__file__).resolve().parent.parent
sys.path.insert(0, str(TOP / "tools"))

from command_line import Fault, Parser, run_main  # noqa: E402 (no bytecode beside the sources)
from families import FAMILIES, REPLIES_ALONE  # noqa: E402
from progress import Progress, print_line  # noqa: E402

BUILT = [TOP / "crates/gczone/out/gczone", TOP / "crates/trace_cli/out/trace_cli"]
OPTIONS = ["--edition", "2024", "-C", "opt-level=3", "-C", "target-cpu=x86-64-v2"]
TRIES = 3
# gczone sweeps by itself here, as the plain Rust does, which has no helpers.
WITHOUT_HELPERS = [("--helpers", "0"), ()]
MEGABYTE = 1 << 20
COLLECTION_LINE = re.compile(rb"(started|groups|ended|swept|done|slice|collected|gray|idle|running|marking|gc ok)\b")


def build_plain(folder):
    """Compiles the plain Rust as gczone is compiled: fully optimised, for the same processor."""
    program = Path(folder) / "plain"
    subprocess.run(["rustc", *OPTIONS, "-o", program, TOP / "bench/plain/main.rs"], check=True)
    return program


def write_trace(path, lines):
    """Writes a trace, and answers how many lines it has. No list is kept: the memory of who starts a program counts as
    the program's."""
    count = 0
    with open(path, "w") as sink:
        for count, line in enumerate(lines, 1):
            sink.write(line + "\n")
    return count


def count_instructions(command, trace, limit):
    """The instructions of a run, or None when it takes too long."""
    counting = ["valgrind", "--tool=callgrind", "--callgrind-out-file=/dev/null", *command]
    try:
        with open(trace, "rb") as source:
            run = subprocess.run(
                counting, stdin=source, stdout=subprocess.DEVNULL, stderr=subprocess.PIPE, timeout=limit
            )
    except subprocess.TimeoutExpired:
        return None
    counted = re.search(rb"Collected : (\d+)", run.stderr)
    if run.returncode or not counted:
        raise Fault(f"{command[0]} failed under valgrind:\n{run.stderr.decode()}", 1)
    return int(counted[1])


def run_once(program, trace, output=os.devnull, word="run", more=()):
    """Wall seconds, processor seconds and the greatest resident bytes of a run."""
    words = [str(program), word, *more]
    files = [
        (os.POSIX_SPAWN_OPEN, 0, str(trace), os.O_RDONLY, 0),
        (os.POSIX_SPAWN_OPEN, 1, str(output), os.O_WRONLY | os.O_CREAT | os.O_TRUNC, 0o600),
    ]
    start = time.perf_counter()
    child = os.posix_spawn(program, words, os.environ, file_actions=files)
    _, status, usage = os.wait4(child, 0)
    wall = time.perf_counter() - start
    if status:
        raise Fault(f"{program} failed: status {os.waitstatus_to_exitcode(status)}", 1)
    return wall, usage.ru_utime + usage.ru_stime, usage.ru_maxrss * 1024


def comparable(lines, replies_alone):
    for line in lines:
        if replies_alone and COLLECTION_LINE.match(line):
            continue
        yield b"slice K" if line.startswith(b"slice ") else line


def agree(programs, trace, folder, replies_alone):
    """Whether both programs write the same."""
    outputs = [folder / "gczone.out", folder / "plain.out"]
    for program, output in zip(programs, outputs):
        run_once(program, trace, output)
    with open(outputs[0], "rb") as ours, open(outputs[1], "rb") as theirs:
        pairs = itertools.zip_longest(comparable(ours, replies_alone), comparable(theirs, replies_alone))
        return all(a == b for a, b in pairs)


def print_row(*cells):
    print_line("| " + " | ".join(map(str, cells)) + " |")


def print_head(*names):
    print_row(*names)
    print_row("---", *["---:"] * (len(names) - 1))


def ratio(ours, theirs):
    return f"{ours / theirs:.2f}" if theirs > 0 else "-"


class Bench:
    def __init__(self, programs, folder, limit):
        self.programs = programs
        self.folder = folder
        self.limit = limit
        self.trace = folder / "trace"
        self.differing = []

    def prepare(self, name, scale):
        return write_trace(self.trace, FAMILIES[name](scale))

    def compare(self, name, scale):
        if not agree(self.programs, self.trace, self.folder, name in REPLIES_ALONE):
            self.differing.append(f"{name} at {scale:g}")

    def count(self):
        return [
            count_instructions([program, "run", *more], self.trace, self.limit)
            for program, more in zip(self.programs, WITHOUT_HELPERS)
        ]

    def print_instructions(self, names, scales):
        print_head("family", "scale", "lines", "gczone", "plain Rust", "ratio")
        write_trace(self.trace, ["zone"])
        empty = self.count()
        traces = list(itertools.product(names, scales))
        with Progress("traces", len(traces)) as progress:
            for name, scale in progress.over(traces):
                self.print_instructions_of(name, scale, empty)

    def print_instructions_of(self, name, scale, empty):
        lines = self.prepare(name, scale)
        found = self.count()
        if None in found:
            print_row(name, f"{scale:g}", f"{lines:,}", "-", "-", f"over {self.limit} s")
            return
        self.compare(name, scale)
        ours, theirs = ((count - start) / lines for count, start in zip(found, empty))
        print_row(name, f"{scale:g}", f"{lines:,}", f"{ours:,.0f}", f"{theirs:,.0f}", ratio(ours, theirs))

    def quickest(self):
        """For each program the least of each figure; the programs take turns."""
        pairs = list(zip(self.programs, WITHOUT_HELPERS))
        runs = [[run_once(program, self.trace, more=more) for program, more in pairs] for _ in range(TRIES)]
        return [tuple(map(min, zip(*of_one))) for of_one in zip(*runs)]

    def print_times(self, names, scale):
        print_head("family", "lines", "wall s", "plain", "ratio", "processor s", "plain", "ratio", "MB", "plain")
        with Progress("traces", len(names)) as progress:
            for name in progress.over(names):
                self.print_times_of(name, scale)

    def print_times_of(self, name, scale):
        lines = self.prepare(name, scale)
        (wall, spent, size), (plain_wall, plain_spent, plain_size) = self.quickest()
        self.compare(name, scale)
        print_row(
            name,
            f"{lines:,}",
            *(f"{wall:.2f}", f"{plain_wall:.2f}", ratio(wall, plain_wall)),
            *(f"{spent:.2f}", f"{plain_spent:.2f}", ratio(spent, plain_spent)),
            *(f"{size / MEGABYTE:.0f}", f"{plain_size / MEGABYTE:.0f}"),
        )


def scales_of(text):
    """The scales that a list with commas names."""
    try:
        return [float(scale) for scale in text.split(",")]
    except ValueError:
        raise ArgumentTypeError(f"'{text}' is no list of numbers as 0.02,0.32") from None


def require(*commands):
    """Whether these commands are there."""
    for command in commands:
        if not shutil.which(command):
            raise Fault(f"{command} is not found", 1)


def read_words():
    words = Parser(__doc__)
    words.add_argument("--time", action="store_true", help="times and memory in place of instructions")
    words.add_argument("--scale", type=scales_of, metavar="X,..", help="scales (0.02,0.32; with --time one, 1)")
    words.add_argument("--only", help="families, with a comma between two")
    words.add_argument("--program", type=Path, help="the gczone to measure")
    words.add_argument("--plain", type=Path, help="the program to measure it against, in place of bench/plain")
    words.add_argument("--limit", type=int, default=300, help="seconds that a run may take under valgrind")
    return words.parse_args()


def find_program(asked):
    program = asked or next((path for path in BUILT if path.exists()), None)
    if program is None:
        raise Fault("there is no proved program: ./gczone prove makes it; --program names another", 1)
    if not os.access(program, os.X_OK) or program.is_dir():
        raise Fault(f"{program} is {'no program' if program.exists() else 'not there'}", 1)
    return program.resolve()


def names_of(asked, known):
    """The names that a list with commas asks for, or all that are known."""
    names = asked.split(",") if asked else list(known)
    unknown = [name for name in names if name not in known]
    if unknown:
        raise Fault(f"'{unknown[0]}' is none of {', '.join(known)}")
    return names


def main():
    words = read_words()
    names = names_of(words.only, FAMILIES)
    require("rustc", *([] if words.time else ["valgrind"]))
    scales = words.scale or ([1.0] if words.time else [0.02, 0.32])
    with tempfile.TemporaryDirectory() as folder:
        folder = Path(folder)
        plain = words.plain.resolve() if words.plain else build_plain(folder)
        bench = Bench([find_program(words.program), plain], folder, words.limit)
        if words.time:
            bench.print_times(names, scales[0])
        else:
            bench.print_instructions(names, scales)
    if bench.differing:
        raise Fault(f"the programs write different lines: {', '.join(bench.differing)}", 1)
    return 0


if __name__ == "__main__":
    run_main(main)
