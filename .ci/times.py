#!/usr/bin/env python3
"""Measures what each crate costs in the gate, and compares that with .ci/budgets.

    .ci/times.py --measure TABLE COMMAND ..    runs `rt ci`, and writes the table
    .ci/times.py --compare TABLE --load LOAD   says what is above its budget
    .ci/times.py --write LOG                   writes .ci/budgets from the output of a run of .ci/run

The table has a line for each crate: the minutes of one processor that its proof, the proof of its tests, and its
must-fail edits took. They are the times of the processes of `rattle` that `rt ci` starts, which are looked at twice a
second; so they depend little on what else the machine does. The output of `rt ci` passes through as it is, and its
status is the status of --measure.

--compare prints each time above 1.3 times its budget. Its status is 1 if one is above twice its budget and the machine
was free: LOAD, the load when the gate began, was below half the number of its processors. A budget below half a minute
counts as half a minute. --write keeps the budgets of crates that the log does not name.
"""

import argparse
import os
import re
import subprocess
import sys
from collections import defaultdict
from pathlib import Path

TOP = Path(__file__).resolve().parent.parent
BUDGETS = TOP / ".ci/budgets"
HEAD = """\
# What each crate may cost in the gate, in minutes of one processor: CRATE PROOF TESTS EDITS.
# .ci/times.py compares a run with this and writes this from a run; tools/prove orders and estimates its work by it.
"""
PARTS = ("proof", "tests", "edits")
ROW = re.compile(r"^gate:   (\w+) +(\d+\.\d) +(\d+\.\d) +(\d+\.\d)$", re.MULTILINE)
TOLD, FAILED, LEAST = 1.3, 2.0, 0.5
TICKS_A_MINUTE = 60 * os.sysconf("SC_CLK_TCK")
PAUSE = 0.5


def read_processes():
    """For each process its parent, when it began, and its time with that of the children it waited for, in ticks."""
    found = {}
    for file in Path("/proc").glob("[0-9]*/stat"):
        try:
            fields = file.read_text().rpartition(")")[2].split()
        except OSError:
            continue  # it has ended since
        found[int(file.parent.name)] = int(fields[1]), int(fields[19]), sum(map(int, fields[11:15]))
    return found


def work_of(process):
    """The crate and the part that a process of `rattle` works on, or None for other processes."""
    try:
        words = Path(f"/proc/{process}/cmdline").read_text(errors="replace").split("\0")
        folder = os.readlink(f"/proc/{process}/cwd")
    except OSError:
        return None
    if "--crate-name" not in words or "rattle" not in map(os.path.basename, words[:2]):
        return None
    part = "edits" if "/rt-edit-" in folder else "tests" if "--test" in words else "proof"
    return words[words.index("--crate-name") + 1], part


class Meter:
    """The time of each process of `rattle` below a process, as it was last seen."""

    def __init__(self, root):
        self.root = root
        self.ticks = {}

    def look(self):
        processes, children = read_processes(), defaultdict(list)
        for process, (parent, *_) in processes.items():
            children[parent].append(process)

        def total(process):
            return processes[process][2] + sum(map(total, children[process]))

        def visit(process):
            work = work_of(process)
            if not work:
                for child in children[process]:
                    visit(child)
                return
            key = (process, processes[process][1], *work)
            self.ticks[key] = max(self.ticks.get(key, 0), total(process))

        for child in children[self.root]:
            visit(child)

    def minutes(self):
        """For each crate the minutes of its parts, in the order in which they began."""
        found = {}
        for (_, _, crate, part), ticks in self.ticks.items():
            found.setdefault(crate, dict.fromkeys(PARTS, 0.0))[part] += ticks / TICKS_A_MINUTE
        return found


def table_of(minutes):
    lines = [f"gate: {'minutes of one processor':26}" + "".join(f"{part:>8}" for part in PARTS)]
    for crate, parts in minutes.items():
        lines.append(f"gate:   {crate:24}" + "".join(f"{parts[part]:8.1f}" for part in PARTS))
    return "\n".join(lines) + "\n"


def read_table(text):
    """The minutes of each crate in a table, or in the output of a run that ends with one."""
    return {row[1]: dict(zip(PARTS, map(float, row.groups()[1:]))) for row in ROW.finditer(text)}


def measure(file, command):
    """Runs the command, writes its table, and returns its status."""
    with subprocess.Popen(command) as running:
        meter = Meter(running.pid)
        while True:
            try:
                status = running.wait(PAUSE)
                break
            except subprocess.TimeoutExpired:
                meter.look()
    file.write_text(table_of(meter.minutes()))
    return status if status >= 0 else 1


def read_budgets(file):
    lines = (line.partition("#")[0].split() for line in file.read_text().splitlines())
    return {crate: dict(zip(PARTS, map(float, minutes))) for crate, *minutes in filter(None, lines)}


def compare(found, budgets, is_free):
    """Prints what is above its budget, and returns whether that fails the gate."""
    worst = 0
    for crate, parts in found.items():
        if crate not in budgets:
            print(f"gate: {crate} has no budget: .ci/times.py --write")
            continue
        for part, minutes in parts.items():
            budget = budgets[crate][part]
            ratio = minutes / max(budget, LEAST)
            worst = max(worst, ratio)
            if ratio > TOLD:
                print(f"gate: over budget: {crate}, {part}: {minutes:.1f} minutes, budget {budget:.1f}")
    if worst > FAILED and not is_free:
        print("gate: over twice a budget, which does not count, since the machine was busy when the gate began")
    return worst > FAILED and is_free


def write_budgets(file, found):
    """Writes the budgets of these crates, and keeps those of the other crates that crates.txt lists."""
    budgets = read_budgets(file) if file.exists() else {}
    budgets.update(found)
    listed = re.findall(r"^(\w+)", (TOP / "crates.txt").read_text(), re.MULTILINE)
    kept = [(crate, budgets[crate]) for crate in listed if crate in budgets]
    lines = [f"{crate:16}" + "".join(f"{minutes[part]:6.1f}" for part in PARTS) for crate, minutes in kept]
    file.write_text(HEAD + "\n".join(lines) + "\n")


def parse_words():
    parser = argparse.ArgumentParser(description=__doc__, formatter_class=argparse.RawDescriptionHelpFormatter)
    ways = parser.add_mutually_exclusive_group(required=True)
    ways.add_argument("--measure", type=Path, metavar="TABLE", help="run the command and write the table of its times")
    ways.add_argument("--compare", type=Path, metavar="TABLE", help="compare a table with the budgets")
    ways.add_argument("--write", type=Path, metavar="LOG", help="write the budgets from the output of a run")
    parser.add_argument("--budgets", type=Path, default=BUDGETS, metavar="FILE", help="in place of .ci/budgets")
    parser.add_argument("--load", type=float, default=0.0, help="the load of the machine when the gate began (0)")
    parser.add_argument("command", nargs=argparse.REMAINDER, help="with --measure, the command and its words")
    given = parser.parse_args()
    if bool(given.command) != bool(given.measure):
        parser.error("--measure takes a command, and nothing else does")
    return given


def main():
    given = parse_words()
    try:
        if given.measure:
            return measure(given.measure, given.command)
        found = read_table((given.compare or given.write).read_text())
        if given.write and found:
            write_budgets(given.budgets, found)
        elif given.write:
            print(f"times.py: {given.write} has no table of times", file=sys.stderr)
            return 1
        else:
            return int(compare(found, read_budgets(given.budgets), given.load < (os.cpu_count() or 1) / 2))
    except (OSError, ValueError, KeyError) as fault:
        print(f"times.py: {fault}", file=sys.stderr)
        return 1
    return 0


if __name__ == "__main__":
    sys.exit(main())
