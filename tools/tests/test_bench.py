"""Small runs of bench/latency.py, memory.py, compaction.py and lines.py, and how the first ranks times."""

import importlib.util
import json
import os
import re
import shutil
import sys
import tempfile
import unittest
from pathlib import Path
from xml.etree import ElementTree

TOP = Path(__file__).resolve().parent.parent.parent
sys.dont_write_bytecode = True
sys.path[:0] = [str(TOP / "tools"), str(TOP / "tools/tests"), str(TOP / "bench")]
from program import find_program  # noqa: E402 (the folder of tools is no package)
from test_tools import run_tool  # noqa: E402

LATENCY, MEMORY, COMPACTION = "../bench/latency.py", "../bench/memory.py", "../bench/compaction.py"
LINES = "../bench/lines.py"
SMALL = ["--cells", "2000", "--rounds", "1"]
KINDS = ["gc", "slice 100", "slice 100, a group ends", "get", "set", "new", "expose"]
TIME = r"(?:-|\d+\.\d|[\d,]+)"


def load(name):
    spec = importlib.util.spec_from_file_location(name, TOP / f"bench/{name}.py")
    module = importlib.util.module_from_spec(spec)
    spec.loader.exec_module(module)
    return module


class Benches(unittest.TestCase):
    def setUp(self):
        holder = tempfile.TemporaryDirectory()
        self.addCleanup(holder.cleanup)
        self.folder = Path(holder.name)
        self.program = str(find_program())

    def script(self, text):
        """A program that is called as gczone is."""
        path = self.folder / "script"
        path.write_text(f"#!/bin/sh\nprogram={self.program}\n{text}\n")
        os.chmod(path, 0o755)
        return str(path)

    def run_beside(self, name, *words, beside=None):
        return run_tool(name, *words, "--program", self.program, "--beside", beside or self.program)


    def check_fails(self, wanted, name, *words, beside):
        """It ends with this message, which may stand behind lines that say how far it has come."""
        status, _, error = self.run_beside(name, *words, beside=beside)
        self.assertEqual((status, error.splitlines()[-1:]), (1, [wanted]))


class Latency(Benches):
    def test_the_tables(self):
        status, output, error = self.run_beside(LATENCY, *SMALL)
        self.assertEqual(status, 0, error)
        for clock in ("Processor", "Wall"):
            head = "| cells | line | lines | p50 | p99 | p99.9 | longest | "
            self.assertIn(f"{clock} time, microseconds:\n\n{head}", output)
        self.assertRegex(output, r"\nGray names at the ends of groups, 2,000 cells: \d+, \d+\.\n$")
        for kind in KINDS:
            line, _, more = kind.partition(",")
            text = re.escape(f"`{line}`" + (f",{more}" if more else ""))
            self.assertEqual(len(re.findall(rf"\| 2,000 \| {text} \| [\d,]+(?: \| {TIME}){{8}} \|", output)), 2, kind)

    def test_json_and_a_plot(self):
        plot = self.folder / "plot.svg"
        words = [*SMALL, "--units", "500", "--json", "--plot", str(plot)]
        status, output, error = self.run_beside(LATENCY, *words)
        self.assertEqual(status, 0, error)
        found = json.loads(output)
        self.assertEqual([found[name] for name in ("units", "rounds", "seed")], [500, 1, 1])
        (heap,) = found["heaps"]
        self.assertEqual((heap["cells"], len(heap["programs"])), (2000, 2))
        self.assertEqual(len(heap["gray_names"]), 2)
        self.assertGreater(max(heap["gray_names"]), 200)
        for kinds in heap["programs"].values():
            self.assertEqual(list(kinds), [kind.replace("100", "500") for kind in KINDS])
            self.assertEqual((kinds["gc"]["lines"], kinds["expose"]["lines"]), (1, 4))
            for times in (kinds["get"]["processor"], kinds["get"]["wall"]):
                self.assertTrue(0 < times["p50"] <= times["longest"])
        curves = ElementTree.parse(plot).getroot().findall(".//{http://www.w3.org/2000/svg}polyline")
        titles = [curve[0].text for curve in curves]
        name = Path(self.program).name if Path(self.program).name != "gczone" else "the other gczone"
        self.assertEqual(titles, ["gczone, slice 500", "gczone, commands", f"{name}, slice 500", f"{name}, commands"])

    def test_other_replies(self):
        other = self.script('exec "$program" "$@" | sed -u "s/^ok$/yes/"')
        self.check_fails(
            "latency.py: the programs reply otherwise: 2,000 cells, round 1", LATENCY, *SMALL, beside=other
        )

    def test_a_program_that_ends(self):
        for text, wanted in (("exit 7", "script ended with status 7"), ("head -n 90", "script ended with status 0")):
            self.check_fails(f"latency.py: {wanted}", LATENCY, *SMALL, beside=self.script(text))

    def test_a_collection_that_is_never_over(self):
        words = [*SMALL, "--units", "1000"]
        wanted = "latency.py: the collection of script is not over after 108 slices"
        self.check_fails(wanted, LATENCY, *words, beside=self.script("exec cat"))

    def test_wrong_words(self):
        for words, wanted in (
            (["--cells", "1999"], "'1999' is no list of numbers from 2000 on"),
            (["--cells", "3000,many"], "'3000,many' is no list of numbers from 2000 on"),
            (["--rounds", "0"], "'0' is no number from 1 on"), (["--units", "0"], "'0' is no number from 1 on"),
        ):
            status, output, error = run_tool(LATENCY, *words)
            self.assertEqual((status, output), (2, ""))
            self.assertIn(wanted, error)

    def test_ranks(self):
        latency = load("latency")
        found = latency.ranks([1e-6 * value for value in range(1, 1001)])
        self.assertEqual({name: round(value) for name, value in found.items()},
                         {"p50": 500, "p99": 990, "p99.9": 999, "longest": 1000})
        found = latency.ranks([2e-6, 1e-6])
        self.assertEqual({name: value and round(value) for name, value in found.items()},
                         {"p50": 1, "p99": None, "p99.9": None, "longest": 2})
        self.assertIsNone(latency.median([3, None, 1]))
        self.assertEqual(latency.median([3, 1, 2]), 2)


class Memory(Benches):
    def test_the_table(self):
        status, output, error = self.run_beside(MEMORY, "--count", "5000")
        self.assertEqual(status, 0, error)
        rows = [[cell.strip() for cell in row.strip("|").split("|")] for row in output.splitlines()]
        self.assertEqual([row[:2] for row in rows[2:]], [[kind, "5,000"] for kind in (
            "cell", "wrapper", "weak entry, keys side by side", "weak entry, a key in eight slots",
        )])
        for row in rows[2:]:
            for size in map(float, row[2:]):
                self.assertTrue(20 < size < 1000, row)

    def test_a_program_that_ends(self):
        wanted = "memory.py: script ended with status 7"
        self.check_fails(wanted, MEMORY, "--count", "10", beside=self.script("exit 7"))


class Compaction(Benches):
    @unittest.skipUnless(shutil.which("valgrind"), "valgrind is not there")
    def test_the_table(self):
        status, output, error = run_tool(COMPACTION, "--cells", "200,400", "--program", self.program)
        self.assertEqual(status, 0, error)
        rows = [[cell.strip() for cell in row.strip("|").split("|")] for row in output.splitlines()]
        self.assertEqual(rows[0], ["cells", "a cell", "a pointer", "a wrapper", "a weak entry"])
        self.assertEqual([row[0] for row in rows[2:]], ["200", "400"])
        for row in rows[2:]:
            for cost in map(float, row[1:]):
                self.assertTrue(10 < cost < 20_000, row)

    def test_wrong_words(self):
        for words, wanted in (
            (["--cells", "0"], "'0' is no list of numbers from 1 on"), (["--limit", "0"], "'0' is no number from 1 on"),
        ):
            status, output, error = run_tool(COMPACTION, *words)
            self.assertEqual((status, output), (2, ""))
            self.assertIn(wanted, error)


class Lines(Benches):
    @unittest.skipUnless(shutil.which("valgrind") and shutil.which("rustc"), "valgrind or rustc is not there")
    def test_the_table(self):
        words = ["--only", "get,collect", "--count", "20", "--plain", self.program, "--program", self.program]
        status, output, error = run_tool(LINES, *words)
        self.assertEqual(status, 0, error)
        rows = [[cell.strip() for cell in row.strip("|").split("|")] for row in output.splitlines()]
        self.assertEqual(rows[0], ["line", "gczone", "plain Rust", "ratio"])
        lines = ["`get`", "`collect`, of an empty zone", "`collect`, of four zones"]
        self.assertEqual([row[0] for row in rows[2:]], lines)
        get, empty, four = (int(row[1].replace(",", "")) for row in rows[2:])
        self.assertTrue(0 < get < empty < four, output)


if __name__ == "__main__":
    unittest.main()
