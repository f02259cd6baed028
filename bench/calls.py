#!/usr/bin/env python3
"""Measures what a call of the library for C costs, and a line through a pipe, and prints one table.

    bench/calls.py [--library PATH] [--program PATH]

For each call: the instructions that it takes, as valgrind counts them, and the nanoseconds of processor time, of five
runs the quickest; what the loop takes without the call is taken off. `gcz_running` does next to nothing behind the
handle, so it shows what the handle costs; `refused` is a `gcz_get` from an empty register, `out-of-range` a `gcz_copy`
to register 16, and `gcz_advance` is one where no collection runs. Before each `gcz_unpin` stands a `gcz_pin`, which is
taken off, too. `over` is what a call takes more than the session's own: the same command of `Session`, done by a loop
in Rattle. For that the library is built once more, from a copy of the sources in which gczone_c has that loop as an
export, so it takes two minutes longer; both builds are without proof then. Last, a line that is written to `gczone run`
and whose answer is read, in microseconds of wall time. Say nothing of times but what one run on one machine shows.
"""

import os
import resource
import shutil
import subprocess
import sys
import tempfile
import time
from pathlib import Path

sys.dont_write_bytecode = True
sys.path.insert(0, str(Path(__file__).resolve().parent.parent / "tools"))

from command_line import Fault, Parser, run_main  # noqa: E402 (no bytecode beside the sources)
from progress import Progress  # noqa: E402
from speed import TOP, count_instructions, find_program, print_head, print_row, require  # noqa: E402

BINDINGS = TOP / "bindings/c"
CALLS = ["gcz_running", "out-of-range", "refused", "gcz_copy", "gcz_get", "gcz_set", "gcz_new", "gcz_pin", "gcz_load"]
CALLS += ["gcz_unpin", "gcz_advance"]
BEFORE = {"gcz_unpin": "gcz_pin"}
OWN = ["refused", "gcz_copy", "gcz_get", "gcz_set", "gcz_new"]
COUNTED, TIMED, LINES, TRIES, LIMIT = 20_000, 2_000_000, 20_000, 5, 120

# What gczone_c has more, to do a command of the session again and again: an export, and what it calls.
REPEAT_EXPORT = """
#[unsafe(no_mangle)]
pub extern "C" fn gcz_repeat(alloc: Global, gcz: &mut Gcz, which: u32, times: u64) -> u32 {
    let Some(base) = asked::register(0) else {
        return statuses::BAD_REGISTER;
    };
    let Some(reg) = asked::register(1) else {
        return statuses::BAD_REGISTER;
    };
    let Some(other) = asked::register(2) else {
        return statuses::BAD_REGISTER;
    };
    let Some(empty) = asked::register(9) else {
        return statuses::BAD_REGISTER;
    };
    let Some(comp) = asked::compartment(0) else {
        return statuses::BAD_COMPARTMENT;
    };
    let cmd = match which {
        0 => GraphCmd::Copy(reg, base),
        1 => GraphCmd::Get(reg, base, 0),
        2 => GraphCmd::Set(base, 0, Some(other)),
        3 => GraphCmd::New(reg, comp, 1),
        4 => GraphCmd::Get(reg, empty, 0),
        _ => return statuses::NONE,
    };
    let Some(mut held) = gcz.take(alloc) else {
        return statuses::CLOSED;
    };
    held.repeat(cmd, times);
    gcz.put(alloc, held);
    statuses::DONE
}
"""
REPEAT_METHOD = """
    pub fn repeat(&mut self, cmd: GraphCmd, times: u64) {
        for _ in 0..times {
            let _done = self.session.command(cmd).is_ok();
        }
    }
}
"""


def build(library, folder, *options):
    program = folder / "calls"
    words = ["cc", "-std=c11", "-O2", *options, f"-I{BINDINGS}", "-o", program, TOP / "bench/calls.c", library]
    if subprocess.run(words, check=False).returncode:
        raise Fault("bench/calls.c does not compile", 1)
    return program


def build_repeating(folder):
    """Builds the library from a copy of the sources in which gczone_c can repeat a command of the session."""
    for name in ("crates", "tools"):
        shutil.copytree(TOP / name, folder / name, ignore=shutil.ignore_patterns("out", "__pycache__"))
    shutil.copy(TOP / "crates.txt", folder)
    sources = folder / "crates/gczone_c/src"
    with open(sources / "lib.rt", "a", encoding="utf-8") as root:
        root.write(REPEAT_EXPORT)
    held = (sources / "held.rt").read_text(encoding="utf-8")
    (sources / "held.rt").write_text(held.rstrip().removesuffix("}").rstrip() + "\n" + REPEAT_METHOD, encoding="utf-8")
    made = folder / "crates/gczone_c/out/libgczone_c-unproved.a"
    for words in (
        [folder / "tools/build-unproved", "gczone_c"],
        ["make", "-s", "-C", BINDINGS, f"OUT={folder / 'out'}", f"ARCHIVE={made}", folder / "out/libgczone.a"],
    ):
        if subprocess.run(words, stdout=subprocess.DEVNULL, check=False).returncode:
            raise Fault("the library that repeats a command could not be built", 1)
    return folder / "out/libgczone.a"


class Over:
    """What a call takes more than the session's own, in instructions and in nanoseconds."""

    def __init__(self, folder):
        library = build_repeating(folder)
        (folder / "all").mkdir()
        (folder / "own").mkdir()
        self.calls, self.own = build(library, folder / "all"), build(library, folder / "own", "-DOWN")

    def measure(self, call, empty):
        if call not in OWN:
            return None
        counted = instructions(self.calls, call) - empty[0] - instructions(self.own, call)
        timed = nanoseconds(self.calls, call) - empty[1] - nanoseconds(self.own, call)
        return counted, timed


def instructions(program, call):
    """What a call takes: what twice the number of calls takes more than that number, by the call."""
    few, many = (
        count_instructions([str(program), call, str(count)], os.devnull, LIMIT) for count in (COUNTED, 2 * COUNTED)
    )
    if few is None or many is None:
        raise Fault(f"{call} takes too long under valgrind", 1)
    return (many - few) / COUNTED


def processor_time():
    used = resource.getrusage(resource.RUSAGE_CHILDREN)
    return used.ru_utime + used.ru_stime


def seconds(program, call):
    before = processor_time()
    done = subprocess.run([program, call, str(TIMED)], check=False)
    if done.returncode:
        raise Fault(f"{call} ended with status {done.returncode}", 1)
    return processor_time() - before


def nanoseconds(program, call):
    return min(seconds(program, call) for _ in range(TRIES)) / TIMED * 1e9


def round_trip(program):
    """Microseconds from a line that is written to the answer that is read."""
    asks = subprocess.Popen([program, "run"], stdin=subprocess.PIPE, stdout=subprocess.PIPE, bufsize=0)
    reader = os.fdopen(os.dup(asks.stdout.fileno()), "rb")
    for line in (b"zone\n", b"comp 0\n", b"new r0 0 1\n"):
        asks.stdin.write(line)
        reader.readline()
    start = time.monotonic()
    for _ in range(LINES):
        asks.stdin.write(b"copy r1 r0\n")
        reader.readline()
    taken = time.monotonic() - start
    asks.stdin.close()
    if asks.wait():
        raise Fault(f"{program} ended with status {asks.returncode}", 1)
    return taken / LINES * 1e6


def without_loop(measure, program, call, loop):
    """What a call takes without the loop around it, and without the loop of the call that stands before it."""
    taken = measure(program, call) - loop
    return taken - measure(program, BEFORE[call]) if call in BEFORE else taken


def read_words():
    words = Parser(__doc__)
    words.add_argument("--library", type=Path, default=BINDINGS / "out/libgczone.a", help="the libgczone.a to measure")
    words.add_argument("--program", type=Path, help="the gczone to measure")
    return words.parse_args()


def main():
    require("cc", "valgrind")
    words = read_words()
    program = find_program(words.program)
    if not words.library.is_file():
        raise Fault(f"{words.library} is not there: make -C bindings/c", 1)
    with tempfile.TemporaryDirectory() as folder, Progress("calls measured", len(CALLS)) as measured:
        calls = build(words.library, Path(folder))
        empty = instructions(calls, "nothing"), nanoseconds(calls, "nothing")
        over = Over(Path(folder))
        rows = [
            (
                call,
                without_loop(instructions, calls, call, empty[0]),
                without_loop(nanoseconds, calls, call, empty[1]),
                over.measure(call, empty),
            )
            for call in measured.over(CALLS)
        ]
        trip = min(round_trip(program) for _ in range(TRIES))
    print_head("call", "instructions", "ns", "over: instructions", "over: ns")
    for call, count, time_taken, more in rows:
        over_it = [f"{more[0]:,.0f}", f"{more[1]:.1f}"] if more else ["-", "-"]
        print_row(call, f"{count:,.0f}", f"{time_taken:.1f}", *over_it)
    print(f"\nA line through a pipe and its answer: {trip:.1f} microseconds.")


if __name__ == "__main__":
    run_main(main)
