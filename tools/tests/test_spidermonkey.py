"""A small part of the comparison with SpiderMonkey: some random traces, the known ones, and the logs of a script.

It needs the packages that tools/spidermonkey/README.md names. Without them it says so and does nothing.
"""

import subprocess
import sys
import tempfile
import unittest
from pathlib import Path

TOOLS = Path(__file__).resolve().parent.parent
HERE = TOOLS / "spidermonkey"
sys.dont_write_bytecode = True
sys.path[:0] = [str(TOOLS), str(HERE)]

import classes  # noqa: E402 (nothing is to be kept beside the sources)
import definitions  # noqa: E402
import runs  # noqa: E402

DIFFERENCE = HERE / "traces/key_behind_a_wrapper.trace"


def run(*words, text=""):
    """The status, the output and the error text of a command."""
    done = subprocess.run(words, input=text, capture_output=True, text=True, check=False)
    return done.returncode, done.stdout, done.stderr


class TestSpiderMonkey(unittest.TestCase):
    def setUp(self):
        try:
            runs.build()
            runs.build("heap-log")
        except runs.Missing as fault:
            self.skipTest(str(fault))

    def check(self, beginning, *words):
        """A comparison passes, and its last line begins so."""
        status, output, error = run(TOOLS / "versus", *words)
        self.assertEqual((status, error), (0, ""), output)
        self.assertTrue(output.startswith(beginning) and output.count("\n") == 1, output)
        return output

    def test_random_traces_in_one_piece(self):
        with tempfile.TemporaryDirectory() as folder:
            record = f"{folder}/record.json"
            self.assertIn(" 0 failures", self.check("20 traces, ", "20", "1", "--record", record))
            status, output, error = run(TOOLS / "versus", "--table", record)
        self.assertEqual((status, error), (0, ""), output)
        self.assertIn("| 20 in one piece | 1 to 20 |", output)
        self.assertIn("its trace: no end after", output)

    def test_random_traces_in_slices(self):
        self.assertIn(" 0 failures", self.check("10 traces, ", "10", "1", "--slices"))

    def test_a_program_that_answers_nothing_or_something_else(self):
        with tempfile.TemporaryDirectory() as folder:
            wrong = Path(folder, "wrong")
            wrong.write_text("#!/bin/sh\nwhile read -r line; do echo ended 0 gray 7; echo swept 9 9; echo 3:4; done\n")
            wrong.chmod(0o755)
            for program in (wrong, "/bin/true", "/bin/false"):
                status, output, error = run(TOOLS / "versus", "1", "1", "--program", program)
                self.assertEqual((status, error), (1, ""))
                self.assertIn("versus: seed 1: run: ", output)

    def test_known_traces(self):
        output = self.check("", "--traces")
        for kind in classes.COUNTED:
            self.assertRegex(output, f"{kind.name} [1-9]")

    def test_bad_line(self):
        status, output, error = run(HERE / "out/replay", text="zone\nzone 1 2 x\ncolour\n")
        self.assertEqual((status, output), (3, "zone 0\nzone 1\n"))
        self.assertTrue(error.startswith("replay: bad line 3: "), error)

    # A gray name that is left out, a death that did not come: each differs from the definitions.
    def test_wrong_colours_are_refused(self):
        lines = (TOOLS.parent / "examples/gray_cycle.trace").read_text().splitlines()
        answers = runs.answers_of_engine(lines)
        self.assertEqual(definitions.judge(lines, answers), [])
        for wrong in (lambda end: end._replace(gray=end.gray ^ {"0"}), lambda end: end._replace(dead=end.dead ^ {"0"})):
            doctored = [answer._replace(ends=tuple(map(wrong, answer.ends))) for answer in answers]
            self.assertNotEqual(definitions.judge(lines, doctored, classes.RULES), [])

    def test_rule_explains_its_difference(self):
        lines = DIFFERENCE.read_text().splitlines()
        answers = runs.answers_of_engine(lines)
        self.assertNotEqual(definitions.judge(lines, answers), [])
        self.assertEqual(definitions.judge(lines, answers, [classes.LATE_WEAK_VALUE]), [])
        self.assertNotEqual(definitions.judge(lines, answers, [classes.EXPOSED_KEY]), [])

    def test_heap_logs(self):
        status, output, error = run(HERE / "check-logs", "--count", "2", HERE / "scripts/maps.js")
        self.assertEqual((status, error), (0, ""), output)
        self.assertTrue(output.endswith(", alike\n"), output)


if __name__ == "__main__":
    unittest.main()
