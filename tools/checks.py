"""Runs named checks side by side, and prints one line for each in a fixed order."""

import subprocess
import sys
from collections.abc import Callable
from concurrent.futures import ThreadPoolExecutor
from dataclasses import dataclass, field

from progress import Progress


class NotRun(Exception):
    """A check cannot be run here; the message says why."""


@dataclass
class Outcome:
    """What is wrong, and what parts of the check could not be run, each with its reason."""

    faults: list[str] = field(default_factory=list)
    left_out: list[str] = field(default_factory=list)


@dataclass
class Check:
    """A check, and about how many seconds of one processor it takes."""

    name: str
    seconds: float
    call: Callable[[], Outcome]


def outcome_of(check):
    """The outcome of a check, or None and why it could not be run."""
    try:
        return check.call(), ""
    except NotRun as reason:
        return None, str(reason)
    except subprocess.TimeoutExpired as late:
        return Outcome([f"no end within {late.timeout:.0f} s"]), ""
    except Exception as fault:  # a check that breaks has failed, and the others go on
        return Outcome([f"{type(fault).__name__}: {fault}"]), ""


def line_of(name, outcome):
    """The line of a check that was run: the first line of each fault, on one line."""
    if not outcome.faults:
        return f"{name}: ok"
    heads = [fault.strip().partition("\n")[0] for fault in outcome.faults]
    return f"{name}: FAILED: {'; '.join(heads)}"


def tell_details(name, faults):
    """Writes what a line has no place for to standard error."""
    for fault in faults:
        if "\n" in fault.strip():
            print(f"{name}:", *fault.strip().splitlines(), sep="\n  ", file=sys.stderr, flush=True)


def count_ended(begun):
    return sum(ended.done() for _, ended in begun)


def run_checks(checks, jobs):
    """Starts the checks in their order, prints a line for each in that order, and returns how many passed and failed.

    Behind the lines stands what was not run, and at the end how many passed and failed.
    """
    passed, failed, left_out = 0, 0, []
    pool = ThreadPoolExecutor(jobs)
    with Progress("checks", len(checks), at_terminals_alone=True) as progress:
        try:
            begun = [(check.name, pool.submit(outcome_of, check)) for check in checks]
            for _, ended in begun:
                ended.add_done_callback(lambda _: progress.tell(count_ended(begun)))
            for name, ended in begun:
                outcome, reason = ended.result()
                if outcome is None:
                    left_out.append(f"{name}: {reason}")
                    continue
                with progress.aside():
                    print(line_of(name, outcome), flush=True)
                    tell_details(name, outcome.faults)
                left_out += [f"{name}, {part}" for part in outcome.left_out]
                passed, failed = passed + (not outcome.faults), failed + bool(outcome.faults)
        finally:
            pool.shutdown(cancel_futures=True)
    for line in left_out:
        print(f"not run: {line}")
    print(f"{passed} passed, {failed} failed", flush=True)
    return passed, failed
