"""Checks the program by the examples, and what becomes of pipes, full devices and wrong words. tools/test runs this.

NAME.trace, here or in a folder, is the input of `gczone run` with any number of helpers and markers, NAME.dump that of
`gczone check`, and NAME.out the output; NAME.status and NAME.err stand where the exit status is not 0 or a text is
printed on standard error.
"""

import os
import select
import subprocess
from functools import partial
from pathlib import Path

from checks import Check, Outcome

EXAMPLES = Path(__file__).resolve().parent
REPORTS = (b"started", b"groups ", b"ended ", b"swept ", b"done", b"stopped ")
WRITE_FAILED = (5, b"gczone: write failed\n")
WORDS = (
    "", "walk", "run walk", "check walk", "run --helpers 5", "run --markers 0", "run --markers 3", "storm 1",
    "storm 1 0", "storm 1 2 --markers 2", "check --markers 2", "--help",
)
SECONDS = 120


def read_or(path, default):
    return path.read_bytes() if path.exists() else default


def check_example(program, source, words):
    """Compares output, status and error text of an example, and names what differs."""
    run = subprocess.run(
        [program, *words], input=source.read_bytes(), capture_output=True, timeout=SECONDS, check=False
    )
    found = {"output": run.stdout, "status": run.returncode, "error text": run.stderr}
    wanted = {
        "output": source.with_suffix(".out").read_bytes(),
        "status": int(read_or(source.with_suffix(".status"), b"0")),
        "error text": read_or(source.with_suffix(".err"), b""),
    }
    differs = [name for name in wanted if found[name] != wanted[name]]
    return Outcome([f"another {' and '.join(differs)}"] if differs else [])


def read_line(pipe):
    """The next line, or None if none comes in time."""
    line = b""
    while not line.endswith(b"\n"):
        if not select.select([pipe], [], [], SECONDS)[0]:
            return None
        byte = os.read(pipe.fileno(), 1)
        if not byte:
            return None
        line += byte
    return line


def check_pipe(program, trace):
    """Sends a line only once the line before is answered."""
    replies = []
    with subprocess.Popen([program, "run"], stdin=subprocess.PIPE, stdout=subprocess.PIPE, bufsize=0) as running:
        for line in trace.read_bytes().splitlines(keepends=True):
            running.stdin.write(line)
            while True:
                reply = read_line(running.stdout)
                if reply is None:
                    running.kill()
                    return Outcome([f"no reply to {line!r}"])
                replies.append(reply)
                if not reply.startswith(REPORTS):
                    break
        running.stdin.close()
        if running.stdout.read() or running.wait(SECONDS) != 0:
            return Outcome(["another end"])
    return Outcome([] if b"".join(replies) == trace.with_suffix(".out").read_bytes() else ["another output"])


def run_into(program, output):
    """Has the program write to a file that takes nothing."""
    run = subprocess.run(
        [program, "run"], input=b"zone\n", stdout=output, stderr=subprocess.PIPE, timeout=SECONDS, check=False
    )
    found = (run.returncode, run.stderr)
    return Outcome([] if found == WRITE_FAILED else [f"status and error text are {found}"])


def check_full_device(program):
    with open("/dev/full", "wb") as output:
        return run_into(program, output)


def check_broken_pipe(program):
    reading, writing = os.pipe()
    os.close(reading)
    with os.fdopen(writing, "wb") as output:
        return run_into(program, output)


def check_words(program, words):
    """The program itself refuses words that it does not take, and writes which it takes."""
    run = subprocess.run([program, *words], input=b"", capture_output=True, timeout=SECONDS, check=False)
    forms = (b"gczone run [--helpers N] [--markers M]", b"gczone storm SEED LINES [--helpers N]", b"gczone check")
    wanted = (2, b"", b"gczone: usage: " + b" | ".join(forms) + b"\n")
    found = (run.returncode, run.stdout, run.stderr)
    return Outcome([] if found == wanted else [f"status, output and error text are {found}"])


def example_checks(program):
    """Each trace without a number of helpers, with none, and with four and two markers; each dump."""
    for source in sorted([*EXAMPLES.rglob("*.trace"), *EXAMPLES.rglob("*.dump")]):
        ways = (["check"],)
        if source.suffix == ".trace":
            ways = (["run"], ["run", "--helpers", "0"], ["run", "--helpers", "4", "--markers", "2"])
        for words in ways:
            name = " ".join([f"examples/{source.relative_to(EXAMPLES)}", *words[1:]])
            yield Check(name, 0.1, partial(check_example, program, source, words))


def checks(program):
    """All checks that run the program alone."""
    yield from example_checks(program)
    yield Check("program, first.trace line by line", 0.1, partial(check_pipe, program, EXAMPLES / "first.trace"))
    yield Check("program, a full device", 0.1, partial(check_full_device, program))
    yield Check("program, a broken pipe", 0.1, partial(check_broken_pipe, program))
    for words in WORDS:
        yield Check(f"program, words '{words}'", 0.1, partial(check_words, program, words.split()))
