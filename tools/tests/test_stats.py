"""Tests of tools/stats. The numbers were worked out by hand from docs/COLLECTOR.md and docs/TRACE.md."""

import json
import sys
import tempfile
import unittest
from pathlib import Path
from xml.etree import ElementTree

TOP = Path(__file__).resolve().parent.parent.parent
EXAMPLES = TOP / "examples"
sys.dont_write_bytecode = True
sys.path[:0] = [str(TOP / "tools"), str(TOP / "tools/tests")]
from test_tools import run_tool  # noqa: E402 (the folder of tools is no package)
from test_why import load  # noqa: E402

stats = load("stats")


class Stats(unittest.TestCase):
    def ask(self, path):
        status, output, error = run_tool("stats", str(path), "--json")
        self.assertEqual((status, error), (0, ""))
        return json.loads(output)

    def ask_lines(self, *lines):
        with tempfile.TemporaryDirectory() as folder:
            path = Path(folder) / "trace"
            path.write_text("".join(line + "\n" for line in lines))
            return self.ask(path)

    # The table of docs/EXAMPLES.md has three units in its first slice, one in the second, and six in its `finish`. The
    # `collect` behind them clears arena 0, begins marking, scans 0, 1 and 2, forms the groups, begins and ends zone 0,
    # and takes in arena 0. It frees 3.
    def test_three_slices(self):
        found = self.ask(EXAMPLES / "three_slices.trace")
        times, memory = found.pop("seconds"), found.pop("memory_bytes")
        counts = {
            "zone": 1, "comp": 1, "new": 4, "get": 3, "set": 6, "drop": 5, "gc": 1, "slice": 2, "finish": 1,
            "collect": 1,
        }
        self.assertEqual(found, {
            "lines": 25,
            "commands": {word: {"lines": count, "refused": 0} for word, count in counts.items()},
            "cells": {"made": 4, "objects": 4, "maps": 0, "wrappers": 0, "freed": 1, "left": 3},
            "collections": {"begun": 2, "over": 2, "given_up": 0, "groups_ended": 2},
            "units": {
                "slice or finish": {"count": 3, "sum": 10, "p50": 3, "p99": 6, "longest": 6, "longest_line": 23},
                "collect": {"count": 1, "sum": 9, "p50": 9, "p99": 9, "longest": 9, "longest_line": 25},
            },
        })
        self.assertEqual(times["count"], 25)
        self.assertTrue(0 < times["p50"] <= times["p99"] <= times["longest"])
        self.assertGreater(memory, 100_000)

    def test_the_table(self):
        status, output, _ = run_tool("stats", str(EXAMPLES / "three_slices.trace"))
        self.assertEqual(status, 0)
        self.assertIn("cells: 4 made (4 objects, 0 maps, 0 wrappers), 1 freed, 3 left\n", output)
        self.assertIn("collections: 2 begun, 2 over, 0 given up, 2 groups ended\n", output)
        self.assertIn("units a slice or finish: p50 3, p99 6, longest 6 (line 23), of 3\n", output)
        self.assertIn("  slice    2\n", output)

    # The wrapper 0:0 is made, freed by line 8 and made again. Line 8 ends one group, and line 11 two.
    def test_a_wrapper_that_is_made_again_counts_twice(self):
        found = self.ask(EXAMPLES / "wrapper_made_again.trace")
        self.assertEqual(found["cells"], {"made": 3, "objects": 1, "maps": 0, "wrappers": 2, "freed": 1, "left": 2})
        self.assertEqual(found["collections"], {"begun": 2, "over": 2, "given_up": 0, "groups_ended": 3})

    # The second `gc` and `collect` are refused while the first runs, and so is `slice` when it is over. The collection
    # of an empty zone begins marking, forms its group, begins it and ends it, and has no arena to clear or to take in.
    def test_what_is_refused(self):
        found = self.ask_lines("zone", "gc 0", "gc 0", "collect 0", "finish", "slice 5", "collect 1", "map r0 0")
        self.assertEqual(found["commands"], {
            "zone": {"lines": 1, "refused": 0}, "map": {"lines": 1, "refused": 1}, "gc": {"lines": 2, "refused": 1},
            "slice": {"lines": 1, "refused": 1}, "finish": {"lines": 1, "refused": 0},
            "collect": {"lines": 2, "refused": 2},
        })
        self.assertEqual(found["collections"], {"begun": 1, "over": 1, "given_up": 0, "groups_ended": 1})
        self.assertEqual(found["units"], {
            "slice or finish": {"count": 1, "sum": 4, "p50": 4, "p99": 4, "longest": 4, "longest_line": 5},
            "collect": {"count": 0},
        })

    def test_a_collection_that_is_not_over(self):
        found = self.ask_lines("zone", "comp 0", "new r0 0 0", "map r1 0", "gc 0", "slice 1")
        self.assertEqual(found["cells"], {"made": 2, "objects": 1, "maps": 1, "wrappers": 0, "freed": 0, "left": 2})
        self.assertEqual(found["collections"], {"begun": 1, "over": 0, "given_up": 0, "groups_ended": 0})

    def test_a_collection_that_is_given_up(self):
        found = self.ask_lines("zone", "comp 0", "new r0 0 0", "gc 0", "reset", "collect 0", "reset")
        self.assertEqual(found["collections"], {"begun": 2, "over": 1, "given_up": 1, "groups_ended": 1})

    def test_ranks(self):
        found = stats.ranks([(line, line % 200) for line in range(1, 401)])
        # Of 0 to 199, each twice: 200 of 400 are at most 99, and 396 at most 197. Line 199 is the first with 199.
        self.assertEqual(
            found, {"count": 400, "sum": 39800, "p50": 99, "p99": 197, "longest": 199, "longest_line": 199}
        )
        self.assertEqual([stats.rank([5], part) for part in (50, 99)], [5, 5])
        self.assertEqual([stats.rank([5, 6, 7], part) for part in (50, 99)], [6, 7])

    # Four pauses, of 3, 1, 6 and 9 units: the highest bar has the whole height, the others parts of it.
    def test_the_plot(self):
        with tempfile.TemporaryDirectory() as folder:
            plot = Path(folder) / "plot.svg"
            status, _, _ = run_tool("stats", str(EXAMPLES / "three_slices.trace"), "--plot", str(plot))
            self.assertEqual(status, 0)
            root = ElementTree.parse(plot).getroot()
        bars = [rect for rect in root.iter("{http://www.w3.org/2000/svg}rect") if len(rect)]
        self.assertEqual([bar[0].text for bar in bars], [f"line {line}: {units} units" for line, units in (
            (14, 3), (22, 1), (23, 6), (25, 9),
        )])
        heights = [float(bar.get("height")) for bar in bars]
        for height, units in zip(heights, (3, 1, 6, 9)):
            self.assertAlmostEqual(height, 240 * units / 9, delta=0.1)
        self.assertEqual(len({bar.get("fill") for bar in bars}), 2)

    def test_a_plot_that_cannot_be_written(self):
        status, _, error = run_tool("stats", str(EXAMPLES / "first.trace"), "--plot", "/nowhere/plot.svg")
        self.assertEqual((status, error), (1, "stats: /nowhere/plot.svg: No such file or directory\n"))


if __name__ == "__main__":
    unittest.main()
