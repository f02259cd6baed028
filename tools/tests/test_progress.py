"""Tests of tools/progress.py: what a terminal shows of a work that takes long, and what a file does."""

import contextlib
import io
import os
import pty
import re
import subprocess
import sys
import tempfile
import time
import unittest
from itertools import groupby
from pathlib import Path
from unittest import mock

TOP = Path(__file__).resolve().parent.parent.parent
TOOLS = TOP / "tools"
EXAMPLES = TOP / "examples"
sys.dont_write_bytecode = True
sys.path[:0] = [str(TOOLS), str(TOOLS / "tests")]
from large_log import main as write_log  # noqa: E402 (the folder of tests is no package)
from progress import Progress, print_line  # noqa: E402

SECONDS = 300
# In place of gczone: they answer as that does, and take much longer than two seconds, also on a busy machine.
SLOW_COMP = "#!/bin/sh\nread -r a; echo ok; read -r a; echo zone 0; read -r a; sleep 6; echo comp 0\n"
SLOW_CHECK = "#!/bin/sh\ncat > /dev/null\nsleep 6\necho ok 0 0 0\n"


class Quick(Progress):
    """A progress that does not wait two seconds, nor a minute."""

    SILENT, EVERY, MINUTE = 0.05, 0.01, 0.1


class Terminal:
    """A terminal of its own: what is written to `stream` is `seen`."""

    def __init__(self):
        self.leader, follower = pty.openpty()
        self.stream = os.fdopen(follower, "w")

    def seen(self):
        """All that was written, once nothing more can be."""
        self.stream.close()
        found = b""
        with contextlib.suppress(OSError):
            while part := os.read(self.leader, 1 << 16):
                found += part
        os.close(self.leader)
        return found.decode()


def shown(text):
    """The lines that a terminal shows one after another at one place, with N for seconds."""
    return [re.sub(r", \d+ s\b", ", N s", line) for line in re.split(r"\r|\x1b\[K|\n", text) if line]


def wait_until(is_true):
    until = time.monotonic() + SECONDS
    while not is_true() and time.monotonic() < until:
        time.sleep(0.01)


def until_shown(progress):
    """Waits until a line has been drawn that says what is done now."""
    progress.is_drawn = False
    wait_until(lambda: progress.is_drawn)


def at_terminal(*words):
    """What a tool writes to a terminal, and its exit status. What it prints goes elsewhere."""
    terminal = Terminal()
    done = subprocess.run(
        [TOOLS / words[0], *map(str, words[1:])], stdin=subprocess.DEVNULL, stdout=subprocess.DEVNULL,
        stderr=terminal.stream, timeout=SECONDS, check=False,
    )
    return terminal.seen(), done.returncode


class ProgressTest(unittest.TestCase):
    def setUp(self):
        # The work of the test before is over for long.
        Progress.last_ended = 0.0

    def tell(self, stream, work, what="lines", total=None, **how):
        with contextlib.redirect_stderr(stream), Quick(what, total, **how) as progress:
            work(progress)

    def at_terminal(self, work, *words, **how):
        terminal = Terminal()
        self.tell(terminal.stream, work, *words, **how)
        return terminal.seen()

    def test_a_terminal_shows_a_bar_and_is_clear_in_the_end(self):
        def work(progress):
            progress.note = "at work: low"
            for done in (1000, 3000):
                progress.tell(done)
                until_shown(progress)

        text = self.at_terminal(work, "lines", 4000)
        self.assertEqual(shown(text)[0], f"[{'#' * 4}{'-' * 12}] 1,000 of 4,000 lines, N s; at work: low")
        self.assertEqual(shown(text)[-1], f"[{'#' * 12}{'-' * 4}] 3,000 of 4,000 lines, N s; at work: low")
        self.assertTrue(text.endswith("\r\x1b[K"))

    def test_what_is_known_is_shown(self):
        self.assertEqual(shown(self.at_terminal(until_shown, "reading"))[0], "reading, N s")

        def read(progress):
            progress.tell(12345, 0.5)
            until_shown(progress)

        self.assertEqual(shown(self.at_terminal(read, "lines read"))[0], f"[{'#' * 8}{'-' * 8}] 12,345 lines read, N s")
        progress = Progress("lines")
        progress.began -= 190
        self.assertEqual(progress.text(), "lines, 3 min 10 s")

    def test_a_line_fits_the_terminal(self):
        def work(progress):
            progress.note = "x" * 500
            until_shown(progress)

        self.assertEqual({len(line) for line in shown(self.at_terminal(work))}, {79})

    def test_a_short_work_shows_nothing(self):
        self.assertEqual(self.at_terminal(lambda progress: progress.tell(5)), "")
        terminal = Terminal()
        with Progress("lines", stream=terminal.stream) as progress:
            progress.tell(5)
            time.sleep(0.5)
        self.assertEqual(terminal.seen(), "")

    def test_a_file_gets_a_line_a_minute(self):
        stream, name = io.StringIO(), Path(sys.argv[0]).name
        self.tell(stream, lambda progress: (progress.tell(7), wait_until(stream.getvalue)), "lines", 9)
        self.assertEqual(set(shown(stream.getvalue())), {f"{name}: 7 of 9 lines, N s"})
        stream = io.StringIO()
        with Quick("seeds", stream=stream):
            with Quick("lines", stream=stream):
                wait_until(lambda: stream.getvalue().count("\n") > 3)
        self.assertEqual(set(shown(stream.getvalue())), {f"{name}: lines, N s"})
        stream = io.StringIO()
        self.tell(stream, lambda _: time.sleep(0.3), at_terminals_alone=True)
        self.assertEqual(stream.getvalue(), "")
        self.assertEqual(Progress.MINUTE, 60)

    def test_works_that_follow_on_each_other_are_silent_together(self):
        terminal, later = Terminal(), mock.patch.multiple(Quick, SILENT=1.0)
        with later, Quick("reading", stream=terminal.stream):
            time.sleep(0.1)
        with later, Quick("drawing", stream=terminal.stream) as progress:
            self.assertLess(Progress.whole_began, progress.began - 0.05)
            until_shown(progress)
        self.assertEqual(set(shown(terminal.seen())), {"drawing, N s"})
        with mock.patch.object(Progress, "last_ended", 0.0), Quick("writing", stream=io.StringIO()):
            self.assertEqual(Progress.whole_began, Progress.at_work[0].began)

    def test_the_inner_work_is_shown_alone(self):
        terminal = Terminal()
        with Quick("seeds", stream=terminal.stream) as outer:
            until_shown(outer)
            with Quick("lines", stream=terminal.stream) as inner:
                until_shown(inner)
        places = [line.split(",")[0] for line in shown(terminal.seen())]
        # Once the inner one has ended, the outer one may be drawn again, or end before that.
        self.assertIn([place for place, _ in groupby(places)], (["seeds", "lines"], ["seeds", "lines", "seeds"]))

    def test_a_printed_line_takes_the_place_of_what_is_shown(self):
        terminal = Terminal()
        with contextlib.redirect_stdout(terminal.stream), Quick("lines", stream=terminal.stream) as progress:
            until_shown(progress)
            print_line("found")
        self.assertRegex(terminal.seen(), "lines, \\d+ s\x1b\\[K\r\x1b\\[Kfound\r\n")

    def test_items_are_counted(self):
        with Progress("items", 3) as progress:
            told = [(item, progress.done) for item in progress.over("abc")]
        self.assertEqual(told, [("a", None), ("b", 1), ("c", 2)])
        self.assertEqual(progress.done, 3)

    def test_nobody_is_there_to_read(self):
        stream = io.StringIO()
        with Quick("lines", stream=stream):
            stream.close()
            time.sleep(0.3)


class ToolsTest(unittest.TestCase):
    """Tools that take longer than two seconds, at a terminal. tools/tests/test_gczone.py has building and proving."""

    def setUp(self):
        holder = tempfile.TemporaryDirectory()
        self.addCleanup(holder.cleanup)
        self.folder = Path(holder.name)

    def program(self, text):
        path = self.folder / "program"
        path.write_text(text)
        path.chmod(0o755)
        return path

    def check_shows(self, pattern, *words, status=0):
        seen, found = at_terminal(*words)
        self.assertEqual(found, status, seen)
        self.assertRegex("\n".join(shown(seen)), f"(?m)^{pattern}$")

    def test_a_heap_log(self):
        log = self.folder / "log"
        with open(log, "w", encoding="ascii") as out, contextlib.redirect_stdout(out):
            write_log(2000, 20000)
        self.check_shows(
            r"\[#+-*\] [\d,]+ of [\d,]+ lines checked, N s", "check-heap-log", log, "--program",
            self.program(SLOW_CHECK),
        )

    def test_a_comparison(self):
        # It is built first, if it is not there: on a busy machine that takes longer than a tool may here.
        subprocess.run([TOOLS / "build-unproved", "spec_replay"], check=True, capture_output=True)
        slow = self.program("#!/bin/sh\nsleep 1.1\nexit 1\n")
        self.check_shows(
            r"[\d,]+ runs to leave out lines, N s", "check-step", "--collector", slow, "--seeds", "0",
            "--lines", "8", status=1,
        )

    def test_statistics(self):
        trace = self.folder / "trace"
        trace.write_text("zone\ncomp 0\n")
        slow = self.program(SLOW_COMP)
        self.check_shows(r"\[#{8}-{8}\] 1 of 2 lines, N s", "stats", trace, "--program", slow)


if __name__ == "__main__":
    unittest.main()
