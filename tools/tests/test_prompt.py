"""Tests of tools/prompt: each of its words over a pipe, a program that dies, and a terminal."""

import fcntl
import os
import pty
import re
import select
import subprocess
import sys
import tempfile
import termios
import time
import unittest
from pathlib import Path

TOP = Path(__file__).resolve().parent.parent.parent
PROMPT = TOP / "tools/prompt"
EXAMPLES = TOP / "examples"
sys.dont_write_bytecode = True
sys.path.insert(0, str(TOP / "tools"))
from program import find_program  # noqa: E402 (the folder of tools is no package)
from trace_model import FORMS, REFUSALS, REPORTS  # noqa: E402

SECONDS = 300
START = ["zone", "comp 0", "new r0 0 1", "new r1 0 0", "set r0 0 r1"]
STARTED = ["zone 0", "comp 0", "cell 0", "cell 1", "ok"]
# A program that answers as gczone does, and ends badly, or stays silent, at the first `finish`.
DIES = """#!/usr/bin/env python3
import os, subprocess, sys, time
program = subprocess.Popen(["{program}", "run"], stdin=subprocess.PIPE, stdout=subprocess.PIPE, bufsize=0)
for line in sys.stdin:
    if line == "finish\\n":
        {ends}
    program.stdin.write(line.encode())
    while True:
        told = program.stdout.readline()
        os.write(1, told)
        if told.decode().split()[0] not in {reports}:
            break
"""


def run_prompt(*lines, words=(), data=None):
    """What the prompt writes, without what stands on standard error, which has to be empty."""
    text = "".join(f"{line}\n" for line in lines).encode() if data is None else data
    ran = subprocess.run([PROMPT, *map(str, words)], input=text, capture_output=True, timeout=SECONDS, check=False)
    return ran.stdout.decode(errors="replace").splitlines(), ran.returncode, ran.stderr.decode()


def write_program(folder, ends):
    """A program that answers as gczone does until `finish`, which it does this at."""
    file = Path(folder) / "program"
    file.write_text(DIES.format(program=find_program(), ends=ends, reports=REPORTS))
    file.chmod(0o755)
    return file


class PipeTest(unittest.TestCase):
    def setUp(self):
        folder = tempfile.TemporaryDirectory()
        self.addCleanup(folder.cleanup)
        self.folder = Path(folder.name)

    def told(self, *lines, words=()):
        """What is said to these lines, where nothing goes wrong."""
        output, status, error = run_prompt(*lines, words=words)
        self.assertEqual((status, error), (0, ""))
        return output

    def after_start(self, *lines):
        output = self.told(*START, *lines)
        self.assertEqual(output[: len(STARTED)], STARTED)
        return output[len(STARTED):]

    def test_commands_are_answered_by_the_program(self):
        for name in ("first", "gray_cycle", "ends_before_another", "dump"):
            with self.subTest(name):
                lines = (EXAMPLES / f"{name}.trace").read_text().splitlines()
                wanted = (EXAMPLES / f"{name}.out").read_text().splitlines()
                said = [line for line in self.told(*lines) if not line.startswith("  ")]
                self.assertEqual(said, wanted)

    def test_refusals_have_their_reason(self):
        self.assertEqual(self.after_start("get r3 r4 0", "slice 1", "set r0 4 r1", "new r2 7 0"), [
            "empty", "  r4 holds nothing", "idle", "  no collection runs", "no-field",
            "  the object has no field of this number", "no-comp", "  the compartment is not made",
        ])

    def test_bad_lines_are_told_and_not_sent(self):
        lines = ["new r16 0 0", "zoen", "bla", "drop", "", "  get r2 r0 0  ", "get  r2 r0 0"]
        self.assertEqual(self.after_start(*lines), [
            "'r16' is out of range: a register, r0 to r15", "'zoen' is no command; did you mean 'zone'?",
            "'bla' is no command; `help` lists what there is", "0 arguments, where drop takes 1: drop r", "1",
            "there are two spaces at byte 4: words have exactly one between them",
        ])
        output, status, error = run_prompt(data=b"zone\n\xff\xfe\nnew r0 \xc3\xa9 0\n\x00\ncomp 0\n")
        self.assertEqual((output[0], output[-1], len(output), status, error), ("zone 0", "comp 0", 5, 0, ""))

    def test_help(self):
        listed = "\n".join(self.told("help"))
        for word in (*FORMS, "help", "why", "draw", "page", "undo", "save", "load", "quit"):
            self.assertRegex(listed, rf"(?m)(^|  ){word}\b")
        self.assertEqual(self.told("help set"), [
            "set s f t", "  field f of the cell of s holds the cell of t; with - for t it becomes null", "  reply: ok",
            "  refusals in order: empty, kind, no-field, cross", "  s: a register, r0 to r15", "  f: a field, 0 to 7",
            "  t: a register, r0 to r15, or -",
        ])
        words = [*FORMS, *sorted(REFUSALS), "undo", "draw"]
        told = self.told(*(f"help {word}" for word in words))
        self.assertEqual([re.match("[a-z-]+", line)[0] for line in told if not line.startswith(" ")], words)
        self.assertEqual(self.told("help bla"), ["'bla' is no command; `help` lists what there is"])

    def test_why_a_reply(self):
        self.assertEqual(self.after_start("drop r0", "drop r1", "collect 0", "why")[-5:], [
            "groups 0        zones end in this order",
            "ended 0 gray -  the colours of the cells of zone 0 are exact; none is gray",
            "swept 0 0 1     arena 0: no root reached 0, 1",
            "done            all groups have ended, all their arenas are swept",
            "collected       the collection is over",
        ])
        self.assertEqual(self.told("why"), ["nothing was answered yet"])

    def test_why_a_cell(self):
        lines = ["drop r1", "hold g2 r0", "drop r0", "why 1", "release g2", "why 1", "why 9", "why x"]
        told = self.after_start(*lines)
        self.assertEqual(told[:4], ["ok", "ok", "ok", "object 1 is black after line 8 (`drop r0`)"])
        self.assertIn("roots that lead to it: g2", told)
        self.assertIn("object 1 is black after line 9 (`release g2`)", told)
        self.assertRegex(told[-2], "^why: .* 9")
        self.assertEqual(told[-1], "'x' is no name of a cell, as 7 is, or 2:7 for a wrapper")
        self.assertEqual(self.told("why 1"), ["nothing was answered yet"])

    def test_draw_shows_the_heap(self):
        lines = ["zone", "comp 1", "wrap r2 r1 1", "hold g0 r0", "drop r0", "drop r1", "gc 0", "draw"]
        self.assertEqual(self.after_start(*lines, "slice 2", "draw")[7:], [
            "zone 0, being prepared, compartment 0",
            "  0       object  not marked yet    [1]                 g0",
            "  1       object  not marked yet    []",
            "zone 1, compartment 1",
            "  1:1     wrapper black             -> 1                r2",
            "started",
            "slice 2",
            "zone 0, marking, compartment 0",
            "  0       object  gray so far       [1]                 g0",
            "  1       object  sure to be black  []",
            "zone 1, compartment 1",
            "  1:1     wrapper sure to be black  -> 1                r2",
        ])
        self.assertEqual(self.told("draw"), ["the heap has no compartment yet"])

    def test_draw_a_file(self):
        tools = self.folder / "bin"
        tools.mkdir()
        dot = tools / "dot"
        dot.write_text("#!/bin/sh\ncat > /dev/null\necho '<svg>drawn</svg>'\n")
        dot.chmod(0o755)
        path = os.environ["PATH"]
        self.addCleanup(os.environ.update, {"PATH": path})
        os.environ["PATH"] = f"{tools}:{path}"
        file = self.folder / "a heap.svg"
        self.assertEqual(self.after_start(f"draw {file}"), [f"the heap is drawn in {file}"])
        self.assertIn("<svg>drawn</svg>", file.read_text())
        self.assertEqual(self.told(f"draw {file}"), ["there is nothing to draw yet"])

    def test_page(self):
        file = self.folder / "heap.html"
        self.assertEqual(self.after_start("collect 0", f"page {file}")[-1], f"the page is in {file}")
        self.assertIn('"collect 0"', file.read_text())
        self.assertEqual(self.told(f"page {file}"), ["there is nothing to show yet"])
        self.assertEqual(self.after_start("page /nofolder/a.html"), ["/nofolder/a.html: No such file or directory"])
        self.assertEqual(self.told("page"), ["the form is: page FILE.html"])

    def test_undo(self):
        told = self.after_start("drop r1", "undo", "copy r2 r1", "undo", "undo", "get r3 r0 0", "undo", "undo")
        self.assertEqual(told, [
            "ok", "taken back: drop r1", "ok", "taken back: copy r2 r1", "taken back: set r0 0 r1", "null",
            "taken back: get r3 r0 0", "taken back: new r1 0 0",
        ])
        self.assertEqual(self.told("zone", "undo", "undo", "zone", "undo 2"), [
            "zone 0", "taken back: zone", "there is nothing to take back", "zone 0", "the form is: undo",
        ])

    def test_save_and_load(self):
        file = self.folder / "saved"
        told = self.after_start(f"save {file}", "drop r0", f"load {file}", "get r2 r0 0", "undo", "undo", "get r2 r0 0")
        self.assertEqual(file.read_text().splitlines(), START)
        self.assertEqual(told, [
            f"5 lines are in {file}", "ok", f"5 lines of {file} are answered; the last one by ok", "1",
            "taken back: get r2 r0 0", "taken back: the load", "empty", "  r0 holds nothing",
        ])
        self.assertEqual(self.told("get r2 r0 0", words=[file])[1:], ["1"])

    def test_what_cannot_be_loaded(self):
        binary = self.folder / "binary"
        binary.write_bytes(bytes(range(256)))
        empty = self.folder / "empty"
        empty.write_bytes(b"")
        for file, fault in ((binary, "bad line"), (empty, "empty"), (self.folder, "directory"), ("/nofile", "No such")):
            with self.subTest(file=file):
                told = self.after_start(f"load {file}", "get r2 r0 0")
                self.assertIn(fault, told[0])
                self.assertEqual(told[1:], ["1"])
                output, status, error = run_prompt(words=[file])
                self.assertEqual((output, status), ([], 2))
                self.assertRegex(error, r"^prompt: .*\n$")
        self.assertEqual(self.told("load", "save"), ["the form is: load FILE", "the form is: save FILE"])
        self.assertIn("No such file", self.told("save /nofolder/a")[0])

    def test_quit_and_the_end_of_the_input(self):
        self.assertEqual(self.told("zone", "quit", "zone"), ["zone 0"])
        self.assertEqual(self.told("zone", "quit now", "zone"), ["zone 0", "the form is: quit", "zone 1"])
        self.assertEqual(run_prompt(data=b""), ([], 0, ""))
        self.assertEqual(run_prompt(data=b"zone"), (["zone 0"], 0, ""))

    def test_a_program_that_dies_keeps_the_heap(self):
        for ends, text in (
            ('sys.exit("gczone: out of memory")', "the program ended with status 1: gczone: out of memory"),
            ("os.kill(os.getpid(), 9)", "the program was ended by SIGKILL"),
            ('print("half", end=""); sys.exit(6)', "the program ended with status 6"),
            ('print("ended x gray -\\nok", flush=True); continue',
             "'finish' cannot be answered by 'ended x gray - / ok'"),
        ):
            with self.subTest(ends=ends):
                lines = [*START, "gc 0", "finish", "get r2 r0 0", "undo", "slice 100"]
                told = self.told(*lines, words=["--program", write_program(self.folder, ends)])
                self.assertEqual(told[:8], [
                    *STARTED, "gc ok", f"{text}; 'finish' is left out, and the heap is as it was before", "1",
                ])
                self.assertEqual(told[-1][:6], "slice ")

    def test_a_program_that_answers_nothing(self):
        for name, status in (("/nofile", 1), (str(self.folder), 1)):
            output, got, error = run_prompt("zone", words=["--program", name])
            self.assertEqual((output, got), ([], status))
            self.assertRegex(error, r"^prompt: .*\n$")
        output, status, error = run_prompt("zone", "zone", words=["--program", "false"])
        self.assertEqual((len(output), status, error), (2, 0, ""))
        self.assertTrue(all("the program ended with status 1" in line for line in output))

    def test_words_at_its_start(self):
        output, status, error = run_prompt(words=["--help"])
        self.assertIn("tools/prompt [TRACE] [--program PATH]", "\n".join(output))
        self.assertEqual((status, error), (0, ""))
        output, status, error = run_prompt(words=["--version"])
        self.assertEqual((len(output), status, error), (1, 0, ""))
        for words in (["--walk"], ["a", "b"]):
            output, status, error = run_prompt(words=words)
            self.assertEqual((output, status), ([], 2))
            self.assertIn("prompt: ", error)


class TerminalTest(unittest.TestCase):
    def start(self, *words, script=PROMPT):
        """Starts the prompt at a terminal of its own."""
        self.leader, follower = pty.openpty()
        self.process = subprocess.Popen(
            [script, *words], stdin=follower, stdout=follower, stderr=follower, start_new_session=True,
            preexec_fn=lambda: fcntl.ioctl(0, termios.TIOCSCTTY, 0),
            env={**os.environ, "TERM": "dumb", "INPUTRC": "/dev/null"},
        )
        os.close(follower)
        self.seen = ""
        self.addCleanup(self.end)
        return self.wait_for("gczone> ")

    def end(self):
        self.process.kill()
        self.process.wait()
        os.close(self.leader)

    def wait_for(self, text):
        """Reads until a text was written, and returns what came before it."""
        until = time.monotonic() + SECONDS
        while text not in self.seen:
            if not select.select([self.leader], [], [], max(0, until - time.monotonic()))[0]:
                self.fail(f"{text!r} does not come after {self.seen!r}")
            try:
                part = os.read(self.leader, 4096)
            except OSError:
                part = b""
            if not part:
                self.fail(f"the prompt ended after {self.seen!r}")
            self.seen += part.decode()
        before, _, self.seen = self.seen.partition(text)
        return before

    def type(self, text):
        """Types a text, and returns what is said until the prompt asks again."""
        os.write(self.leader, text.encode())
        return self.wait_for("gczone> ").replace("\r", "")

    def leave(self, text):
        os.write(self.leader, text.encode())
        self.assertEqual(self.process.wait(SECONDS), 0)

    def test_history_and_completion(self):
        self.assertIn("`help` lists what there is", self.start())
        self.assertEqual(self.type("zone\n"), "zone\nzone 0\n")
        self.assertEqual(self.type("\x1b[A\n"), "zone\nzone 1\n")
        self.assertIn("comp 0\n", self.type("com\t 1\n"))
        self.assertIn("makes an object with n null fields", self.type("hel\tnew\n"))
        self.assertIn("cell 0\n", self.type("new r0 0 2\n"))
        self.assertIn("object 0 is black", self.type("why 0\t\n"))
        self.leave("\x04")

    def test_gczone_without_words_is_the_prompt(self):
        with tempfile.TemporaryDirectory() as folder:
            saved = Path(folder, "saved")
            self.assertIn("`help` lists what there is", self.start(script=TOP / "gczone"))
            for line in ("zone", "comp 0", "new r0 0 1", "new r1 0 0", "set r0 0 r1"):
                self.type(f"{line}\n")
            self.assertIn("'zoen' is no command; did you mean 'zone'?", self.type("zoen\n"))
            self.assertIn("empty\n  r5 holds nothing\n", self.type("get r2 r5 0\n"))
            self.assertIn("refusals in order: empty, kind, no-field", self.type("help get\n"))
            self.assertEqual(self.type("drop r1\n"), "drop r1\nok\n")
            self.assertIn("field 0 of 0  1\n", self.type("why 1\n"))
            self.assertIn("taken back: drop r1\n", self.type("undo\n"))
            self.assertRegex(self.type("draw\n"), r"1  +object  black +\[\] +r1\n")
            self.assertIn(f"6 lines are in {saved}\n", self.type(f"save {saved}\n"))
            self.leave("quit\n")
            self.assertEqual(saved.read_text().splitlines()[-1], "get r2 r5 0")

    def test_interrupts_keep_the_session(self):
        with tempfile.TemporaryDirectory() as folder:
            waits = Path(folder) / "waits"
            self.start("--program", str(write_program(folder, f"open({str(waits)!r}, 'w').close(); time.sleep(1000)")))
            self.type("zone\n")
            self.type("comp 0\n")
            self.type("gc 0\n")
            # A signal that comes before readline waits for a key is seen at the next key alone.
            os.write(self.leader, b"half a line")
            self.wait_for("half a line")
            time.sleep(0.5)
            self.type("\x03")
            os.write(self.leader, b"finish\n")
            until = time.monotonic() + SECONDS
            while not waits.exists() and time.monotonic() < until:
                time.sleep(0.05)
            self.assertIn("interrupted; 'finish' is left out", self.type("\x03"))
            self.assertIn("cell 0", self.type("new r0 0 0\n"))
            self.leave("quit\n")


if __name__ == "__main__":
    unittest.main()
