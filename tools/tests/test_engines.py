"""A small run of bench/engines.py, without instructions.

It needs the packages that bench/collectors/README.md names. Without them it says so and does nothing.
"""

import subprocess
import unittest
from pathlib import Path

TOP = Path(__file__).resolve().parent.parent.parent
COLLECTORS = TOP / "bench/collectors"
NUMBER = r"(?:\d+\.\d|\d+,\d+)"
FIGURE = rf"{NUMBER} \({NUMBER} to {NUMBER}\)"


def run(*words):
    """The status, the output and the error text of a command."""
    done = subprocess.run(words, stdin=subprocess.DEVNULL, capture_output=True, text=True, check=False)
    return done.returncode, done.stdout, done.stderr


class TestEngines(unittest.TestCase):
    def setUp(self):
        status, _, error = run("make", "-s", "-C", COLLECTORS)
        if status:
            self.skipTest(error.splitlines()[0])

    def test_one_heap_in_each(self):
        status, output, error = run(TOP / "bench/engines.py", "--cells", "16384", "--rounds", "2", "--only",
                                    "tree,wrappers", "--times")
        self.assertEqual(status, 0, error)
        for collector in ("gczone", "SpiderMonkey", "Boehm", "OCaml"):
            self.assertRegex(output, rf"\| tree \| 16,384 \| {collector} \| {FIGURE} \| - \| {FIGURE} \| - \| \d+ \|")
        for collector in ("gczone", "SpiderMonkey"):
            self.assertRegex(output, rf"\| wrappers \| 4,096 \| {collector} \| {FIGURE} ")
        self.assertIn("| wrappers | 4,096 | Boehm | - |", output)
        self.assertIn("\nNot told apart: ", output)

    def test_unknown_heap(self):
        status, output, error = run(TOP / "bench/engines.py", "--only", "forest")
        self.assertEqual((status, output), (2, ""))
        self.assertIn("'forest' is none of tree, ", error)


if __name__ == "__main__":
    unittest.main()
