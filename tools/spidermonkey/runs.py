"""Runs a trace on SpiderMonkey and on gczone, and reads both outputs into one form."""

import shutil
import subprocess
from pathlib import Path
from typing import NamedTuple, Optional

from command_line import Fault
from trace_model import answers, ask, dead_after, is_report

HERE = Path(__file__).resolve().parent
REPLAY = HERE / "out/replay"
SECONDS = 120


class Missing(Fault):
    """SpiderMonkey, or what builds the programs here, is not installed."""


class End(NamedTuple):
    """A group's end: its zones, its gray names, the names that die. Of the engine also the gray names of zones that are
    not marking, and the black names of zones that are."""
    zones: frozenset
    gray: frozenset
    dead: frozenset
    outside: Optional[frozenset] = None
    marking_black: Optional[frozenset] = None


class Answer(NamedTuple):
    """What is written for a line: its reply, whether marking began with it, and the reports before. The engine does not
    tell its groups at once."""
    reply: str
    groups: tuple = ()
    ends: tuple = ()
    is_done: bool = False
    is_started: bool = False


def build(target="replay"):
    """Builds a program of this folder, if it is not current."""
    if not shutil.which("make"):
        raise Missing("make is not installed: it is in the package make", 1)
    for goal, fault in (("installed", Missing), (f"out/{target}", Fault)):
        made = subprocess.run(["make", "-s", "-C", HERE, goal], capture_output=True, text=True, check=False)
        if made.returncode:
            raise fault(made.stderr.strip().splitlines()[0], 1)
    return HERE / "out" / target


def ask_engine(lines, options):
    """The output lines of the engine on a trace."""
    text = "".join(line + "\n" for line in lines)
    done = subprocess.run([REPLAY, *options], input=text, capture_output=True, text=True, timeout=SECONDS, check=False)
    if done.returncode or done.stderr:
        raise Fault(f"replay ends with status {done.returncode}: {done.stderr.strip()}", 1)
    return done.stdout.splitlines()


def names(words):
    return frozenset(words) - {"-"}


def zones_and_gray(line):
    """The zones and the gray names of an `ended` line."""
    zones, gray = line.removeprefix("ended ").split(" gray ")
    return frozenset(map(int, zones.split(" "))), names(gray.split(" "))


def short(reply):
    """A reply without its number of units, which each program counts in its own way."""
    return "slice" if reply.startswith("slice ") else reply


def answers_of_program(program, lines):
    """What gczone answers: an answer a line."""
    told = answers(lines, ask(lines, program))
    reports = [line for own in told for line in own if is_report(line)]
    found, at = [], 0
    for *own, reply in told:
        groups, ends = (), []
        for line in own:
            if line.startswith("groups "):
                groups = tuple(frozenset(map(int, zones.split(" "))) for zones in line[len("groups "):].split(" | "))
            elif line.startswith("ended "):
                ends.append(End(*zones_and_gray(line), names(dead_after(reports, at))))
            at += 1
        found.append(Answer(short(reply), groups, tuple(ends), "done" in own, "started" in own))
    return found


def answers_of_engine(lines, options=()):
    """What SpiderMonkey answers: an answer a line."""
    found, ends, is_done = [], [], False
    for line in ask_engine(lines, options):
        word, *rest = line.split(" ")
        if word == "ended":
            ends.append(End(*zones_and_gray(line), frozenset()))
        elif word == "dead":
            ends[-1] = ends[-1]._replace(dead=names(rest))
        elif word == "outside":
            ends[-1] = ends[-1]._replace(outside=names(rest[1:]))
        elif word == "marking" and rest:
            ends[-1] = ends[-1]._replace(marking_black=names(rest[1:]))
        elif word == "done":
            is_done = True
        elif word == "finalizers:":
            raise Fault(f"the engine's {line}", 1)
        else:
            # It goes on with `gc` until marking has begun.
            found.append(Answer(short(line), (), tuple(ends), is_done, line in ("gc ok", "collected")))
            ends, is_done = [], False
    return found
