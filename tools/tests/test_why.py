"""Tests of tools/why, of tools/check-heap-log --why, and of the ways that both find.

What is expected was worked out by hand from docs/COLLECTOR.md and docs/TRACE.md.
"""

import contextlib
import importlib.machinery
import importlib.util
import itertools
import random
import sys
import tempfile
import unittest
from array import array
from pathlib import Path

TOP = Path(__file__).resolve().parent.parent.parent
EXAMPLES = TOP / "examples"
sys.dont_write_bytecode = True
sys.path[:0] = [str(TOP / "tools"), str(TOP / "tools/tests")]
from program import find_program  # noqa: E402 (the folder of tools is no package)
from reach import Graph  # noqa: E402
from test_tools import run_tool  # noqa: E402


def load(name):
    """A tool as a module."""
    loader = importlib.machinery.SourceFileLoader(name.replace("-", "_"), str(TOP / "tools" / name))
    module = importlib.util.module_from_spec(importlib.util.spec_from_loader(loader.name, loader))
    loader.exec_module(module)
    return module


why, check_step = load("why"), load("check-step")


def trace(text):
    """The lines of a trace, each with its number before it as here, and one after another."""
    return [line.strip().partition(" ")[2] for line in text.strip().splitlines()]


class Why(unittest.TestCase):
    def ask(self, lines, line, cell):
        texts = why.why(why.History(lines, find_program()), line, cell)
        return [" ".join(text.split()) for text in texts]

    def example(self, name, line, cell):
        return self.ask((EXAMPLES / f"{name}.trace").read_text().splitlines(), line, cell)

    def check_has(self, texts, *wanted):
        """The wanted lines stand one after another."""
        self.assertIn("\n".join(wanted), "\n".join(texts))

    def check_has_not(self, texts, word):
        self.assertNotIn(word, "\n".join(texts))

    # Two cells hold each other; g3 holds 0. Line 10 finds both gray, and line 12 hands out 0.
    def test_an_exposed_cell_and_what_it_leads_to(self):
        texts = self.example("expose", 12, "0")
        self.check_has(texts, "a register leads to it:", "r5 0", "roots that lead to it: r5, g3")
        self.check_has(texts, "it is black since line 12 (`expose r5 g3`), which handed it out: it was gray, and")
        texts = self.example("expose", 12, "1")
        self.check_has(texts, "a register leads to it:", "r5 0", "* field 0 of 0 1", "roots that lead to it: r5, g3")
        self.check_has(texts, "it is black since line 12 (`expose r5 g3`), which handed out a gray cell")
        self.check_has(texts, "woken at line 12 0", "field 0 of 0 1")
        texts = self.example("expose", 11, "1")
        self.check_has(texts, "no register leads to it, and a gray slot does:", "* g3 0", "* field 0 of 0 1")
        self.assertEqual(texts[0], "object 1 is gray after line 11 (`colours`)")
        self.check_has_not(texts, "since")
        self.check_has(texts, "line 18 (`collect 0`) frees it: group 0 ended, and nothing had reached it")
        texts = self.example("expose", 18, "1")
        self.check_has(texts, "no root led to it after line 17 (`release g3`)", "line 18 (`collect 0`) frees it:")

    # Line 20 takes 3 out of its field unread, so that nothing leads to it. The snapshot of line 13 has it.
    def test_a_cell_that_was_overwritten_while_a_collection_ran(self):
        texts = self.example("three_slices", 21, "3")
        self.assertEqual(texts[0], "object 3 is of no settled colour after line 21 (`drop r1`)")
        self.assertEqual(texts[2], "no root leads to it since line 20 (`set r1 1 -`)")
        self.check_has(texts, "this led to it as that began:", "r0 0", "field 0 of 0 1", "field 1 of 1 3")
        self.check_has(texts, "it is black only for that: what led to it was overwritten or dropped since, and no root")
        self.check_has(texts, "line 25 (`collect 0`) frees it: group 0 ended, and nothing had reached it; its arena, 0")
        texts = self.example("three_slices", 24, "3")
        self.assertEqual(texts[0], "object 3 is black after line 24 (`get r2 r0 1`)")
        self.check_has(texts, "it is black since line 23 (`finish`): the collection that began at line 13 found it so")
        self.check_has(texts, "the next collection of its zone that begins frees it, unless another zone keeps it")

    # While the collection runs, 2 is moved from 1 to 0: r2 holds it, and field 1 of 0 since line 17.
    def test_a_cell_that_is_also_held(self):
        texts = self.example("three_slices", 18, "2")
        self.check_has(texts, "a register leads to it:", "r2 2", "roots that lead to it: r0, r2")
        self.check_has_not(texts, "only for that")

    # Line 21 makes 3 while the collection of line 11 runs, and line 22 drops it.
    def test_a_cell_that_was_made_while_a_collection_ran(self):
        texts = self.example("slices", 22, "3")
        self.check_has(texts, "line 21 (`new r3 0 0`) made it while the collection ran")
        self.check_has(texts, "it is black only for that: no root leads to it now")
        self.check_has(texts, "line 27 (`collect 0`) frees it: group 0 ended")
        texts = self.example("slices", 26, "3")
        self.check_has(texts, "line 21 (`new r3 0 0`) made it while the collection ran")
        self.check_has(texts, "no root leads to it since line 22 (`drop r3`)")

    EXPOSED = trace("""
        1 zone
        2 comp 0
        3 new r0 0 1
        4 new r1 0 0
        5 set r0 0 r1
        6 hold g0 r0
        7 drop r0
        8 drop r1
        9 collect 0
        10 gc 0
        11 slice 2
        12 expose r2 g0
        13 drop r2
        14 finish
        15 collect 0
        16 gc 0
        17 slice 2
        18 finish
    """)

    # g0 holds 0, which leads to 1; both are gray after line 9. The exposure of line 12 is all that makes them black.
    def test_a_cell_that_was_exposed_while_a_collection_ran(self):
        texts = self.ask(self.EXPOSED, 10, "0")
        self.check_has(texts, "colours are not settled: the collection of line 10 is being prepared, in these zones: 0")
        texts = self.ask(self.EXPOSED, 13, "0")
        self.check_has(texts, "line 12 (`expose r2 g0`) exposed it while the collection ran")
        self.check_has(texts, "it is black only for that: only gray slots lead to it now")
        texts = self.ask(self.EXPOSED, 13, "1")
        self.check_has(texts, "line 12 (`expose r2 g0`) handed out 0 while the collection ran")
        self.check_has(texts, "this led to it as that began:", "woken at line 12 0", "field 0 of 0 1")
        self.check_has(texts, "it is black only for that: only gray slots lead to it now")
        texts = self.ask(self.EXPOSED, 14, "1")
        self.check_has(texts, "it is black since line 14 (`finish`): the collection that began at line 10 found it so")
        self.check_has(texts, "the next collection of its zone that begins turns it gray, unless another zone keeps it")
        self.assertEqual(self.ask(self.EXPOSED, 15, "1")[0], "object 1 is gray after line 15 (`collect 0`)")
        texts = self.ask(self.EXPOSED, 17, "1")
        self.check_has(texts, "the collection keeps it, and finds it gray if no command turns it black")

    # Line 8 leaves 2 with nothing that leads to it, as lines 6 and 7 say of r1 and r0; it is born black.
    def test_a_cell_that_is_black_since_it_was_made(self):
        lines = trace("""
            1 zone
            2 comp 0
            3 new r0 0 1
            4 new r1 0 0
            5 set r0 0 r1
            6 drop r1
            7 set r0 0 -
            8 gc 0
            9 slice 2
        """)
        texts = self.ask(lines, 7, "1")
        self.assertEqual(texts[2], "no root leads to it since line 7 (`set r0 0 -`)")
        self.check_has(texts, "it is black since line 4 (`new r1 0 0`): a cell is born black")
        texts = self.ask(lines, 9, "1")
        self.check_has(texts, "nothing led to it as that began: the collection frees it")
        self.check_has_not(texts, "frees it:")

    # Map 0 in r0 and 1, which g0 holds, keep the wrapper 0:1, and so its value 2.
    def test_a_key_that_its_delegate_keeps(self):
        texts = self.example("delegate", 20, "2")
        self.check_has(texts, "* key 0:1 of map 0 0:1", "* value of key 0:1 in map 0 2")
        self.check_has(texts, "roots that lead to it: r0, g0")
        self.assertEqual(texts[0], "object 2 is gray after line 20 (`collect 0`)")

    # Line 16 gives the collection of zone 0 up, which holds 0 and the wrapper 0:1, and that leads to 1.
    def test_a_cell_that_is_black_since_a_reset(self):
        texts = self.example("reset", 17, "1")
        self.check_has(texts, "it is black since line 16 (`reset`), which gave the collection up")
        self.check_has(texts, "in a zone that was stopped 0:1", "target of 0:1 1")

    # r0 holds map 0, and g0 key 1. The value is as the weaker of the two, gray, and needs both roots and the entry.
    def test_the_value_of_a_weak_entry(self):
        lines = trace("""
            1 zone
            2 comp 0
            3 map r0 0
            4 new r1 0 0
            5 new r2 0 1
            6 new r3 0 0
            7 set r2 0 r3
            8 put r0 r1 r2
            9 hold g0 r1
            10 drop r1
            11 drop r2
            12 drop r3
            13 collect 0
            14 release g0
            15 collect 0
        """)
        texts = self.ask(lines, 13, "3")
        self.check_has(
            texts, "no register leads to it, and a gray slot does:", "* r0 0", "* g0 1", "* value of key 1 in map 0 2",
            "* field 0 of 2 3", "roots that lead to it: r0, g0",
            "a collection frees it once all of these roots, or one thing marked *, let go",
        )
        self.assertEqual(texts[0], "object 3 is gray after line 13 (`collect 0`)")
        self.assertEqual(self.ask(lines, 14, "3")[2], "no root leads to it since line 14 (`release g0`)")
        texts = self.ask(lines, 15, "3")
        self.check_has(texts, "no root led to it after line 14 (`release g0`)", "line 15 (`collect 0`) frees it: group")

    # The black wrapper 0:1 of zone 0, which line 11 leaves out, leads to 1.
    def test_a_cell_that_a_zone_that_was_left_out_keeps(self):
        texts = self.example("zone_left_out", 11, "1")
        self.assertEqual(texts[2], "no root leads to it since line 10 (`drop r2`)")
        self.check_has(texts, "black in zone 0, which was not collected 0:1", "target of 0:1 1")
        self.check_has(texts, "line 13 (`collect 1`) frees it: group 1 ended")

    def test_a_cell_that_was_freed(self):
        texts = self.example("exposed_while_out", 12, "2")
        self.assertEqual(texts, [
            "cell 2 is gone after line 12 (`colours`): it was made by line 6 (`new r1 0 0`)",
            "no root led to it after line 9 (`drop r1`)",
            "line 11 (`slice 8`) frees it: group 0 ended, and nothing had reached it; its arena, 0, was swept by "
            "line 17 (`finish`)",
        ])

    # The group of line 11 is the last: the trace ends before its arena is taken in.
    def test_a_cell_that_is_dead_and_not_swept(self):
        lines = (EXAMPLES / "exposed_while_out.trace").read_text().splitlines()[:11]
        texts = self.ask(lines, 11, "2")
        self.check_has(texts, "and nothing had reached it; the trace ends before its arena is swept")

    def test_a_group_of_two_zones(self):
        lines = (EXAMPLES / "gray_cycle.trace").read_text().splitlines()
        freeing = max(number for number, line in enumerate(lines, 1) if line == "collect 0 1")
        for cell in ("0", "1", "0:1", "1:0"):
            texts = self.ask(lines, len(lines), cell)
            self.check_has(texts, f"line {freeing} (`collect 0 1`) frees it: group 0 1 ended")
            self.check_has(texts, "no root led to it after line 18 (`release g0`)")

    # The wrapper of line 6 is freed by line 8, and line 9 makes another one of its name.
    def test_a_wrapper_that_is_made_again(self):
        texts = self.example("wrapper_made_again", 8, "0:0")
        self.check_has(texts, "no root led to it after line 7 (`drop r1`)", "line 8 (`collect 0`) frees it: group 0")
        texts = self.example("wrapper_made_again", 9, "0:0")
        self.assertEqual(texts[1], "line 9 (`wrap r1 r0 0`) made it, in compartment 0 of zone 0")
        self.check_has_not(texts, "frees it:")

    def test_a_cell_that_is_not_made_yet_and_one_that_never_is(self):
        texts = self.example("three_slices", 5, "3")
        self.assertEqual(texts, ["cell 3 is not made yet: line 6 (`new r3 0 0`) makes it"])
        found = run_tool("why", str(EXAMPLES / "expose.trace"), "12", "7")
        self.assertEqual(
            found, (2, "", "why: no line of the trace makes a cell 7; it makes 2 objects and maps, from 0 on\n")
        )

    def test_colours_are_those_of_the_program(self):
        settled = 0
        for seed in range(6):
            lines = [more for line in check_step.Trace(seed, 60, True).lines for more in (line, "colours")]
            world, history = why.World(), why.History(lines, find_program())
            for number, words, own, model in history.moments(len(lines)):
                world.follow(number, words, own, model)
                if own[-1].startswith("gray "):
                    grays = {name for name in model.cells if world.state(name) == "gray"}
                    self.assertEqual(set(own[-1].split(" ")[1:]) - {"-"}, grays, (seed, number))
                    settled += 1
        self.assertGreater(settled, 100)


class Ways(unittest.TestCase):
    """Graphs whose closures are also found by going round until nothing is added."""

    def closure(self, graph, roots, left_out=None):
        found = {graph.roots[root] for root in roots if ("root", root) != left_out}
        while True:
            more = set(found)
            for cell in found:
                edges = range(graph.first_edge[cell], graph.first_edge[cell + 1])
                more |= {graph.targets[edge] for edge in edges if ("edge", edge) != left_out}
            more |= {
                value for number, (one, other, value) in enumerate(graph.entries)
                if {one, other} <= found and ("entry", number) != left_out
            }
            if more == found:
                return found
            found = more

    def graph(self, chosen):
        count = chosen.randint(2, 9)
        edges = [[chosen.randrange(count) for _ in range(chosen.choice((0, 1, 1, 2)))] for _ in range(count)]
        first = array("Q", [0, *itertools.accumulate(map(len, edges))])
        entries = [tuple(chosen.randrange(count) for _ in range(3)) for _ in range(chosen.randint(0, 4))]
        roots = [chosen.randrange(count) for _ in range(chosen.randint(1, 3))]
        return Graph(first, array("I", itertools.chain(*edges)), entries, roots)

    def test_ways_are_whole_and_what_is_needed_is_needed(self):
        chosen = random.Random(3)
        with_entries = without = 0
        for _ in range(500):
            graph = self.graph(chosen)
            roots = range(len(graph.roots))
            ways, reached = graph.ways(roots), self.closure(graph, roots)
            self.assertEqual({cell for cell in range(graph.count) if ways.reaches(cell)}, reached)
            for goal in reached:
                way = ways.way(goal)
                with_entries += any(step.kind == "entry" for step in way)
                without += len(way) > 1
                self.assertEqual(way[-1].cell, goal)
                for at, step in enumerate(way):
                    self.assertLessEqual(set(step.sources), {other.cell for other in way[:at]})
                needed = {step.key() for step in graph.needed(roots, way, goal)}
                self.assertEqual(
                    needed, {step.key() for step in way if goal not in self.closure(graph, roots, step.key())}
                )
                lead, every = set(graph.roots_of(roots, goal)), set(roots)
                self.assertTrue(all(goal in self.closure(graph, every - {root}) for root in every - lead))
                self.assertNotIn(goal, self.closure(graph, every - lead))
        self.assertGreater(min(with_entries, without), 100)

    # 0 -> 1 -> 2 -> 4 and 0 -> 3 -> 4: the second is shorter, and neither is needed. Each way to 5 goes by 4.
    def test_the_shortest_way(self):
        graph = Graph(array("Q", [0, 2, 3, 4, 5, 6, 6]), array("I", [1, 3, 2, 4, 4, 5]), [], [0])
        way = graph.ways([0]).way(5)
        self.assertEqual([step.cell for step in way], [0, 3, 4, 5])
        self.assertEqual([step.key() for step in graph.needed([0], way, 5)], [("root", 0), ("edge", 5)])

    # Two fields of 0 hold 1, so neither is needed.
    def test_two_edges_to_one_cell(self):
        graph = Graph(array("Q", [0, 2, 2]), array("I", [1, 1]), [], [0])
        self.assertEqual([step.kind for step in graph.needed([0], graph.ways([0]).way(1), 1)], ["root"])


class HeapLog(unittest.TestCase):
    LOG = str(EXAMPLES / "heap.log")

    def ask(self, address, log=LOG):
        status, output, _ = run_tool("check-heap-log", "--why", address, log)
        self.assertEqual(status, 0)
        return [" ".join(line.split()) for line in output.splitlines()]

    # The global 3d030 holds the array 4c6f0, whose elements are 4c538 and 4c4e8; the latter's b is 4c538 as well. The
    # object 4c380, which the gray root holds, leads to 4c6c8, that to 4c4e8.
    def test_a_black_cell(self):
        self.assertEqual(self.ask("0x25c314c4c538"), [
            "black Object 0x25c314c4c538", "a black root leads to it:",
            "black root exact-Object black global 0x25c314c3d030",
            "field keep of 0x25c314c3d030 black Array 0x25c314c4c6f0",
            "field objectElements[0] of 0x25c314c4c6f0 black Object 0x25c314c4c538",
            "roots that lead to it: black root exact-Object, gray root gray holder",
            "a collection frees it once all of these roots let go",
        ])

    # The entry of map 3e088, which 4c380 holds in m, with key 4c6c8, its element 3. No other way leads to the value.
    def test_the_value_of_a_gray_entry(self):
        self.assertEqual(self.ask("25C314C4C038"), [
            "gray Object 0x25c314c4c038", "a gray root leads to it:",
            "* gray root gray holder gray Object 0x25c314c4c380",
            "* field m of 0x25c314c4c380 gray WeakMap 0x25c314c3e088",
            "* field objectElements[3] of 0x25c314c4c380 gray Object 0x25c314c4c6c8",
            "* value of key 0x25c314c4c6c8 in map 0x25c314c3e088 gray Object 0x25c314c4c038",
            "roots that lead to it: gray root gray holder",
            "a collection frees it once all of these roots, or one thing marked *, let go",
        ])

    def test_a_key_that_its_delegate_keeps_and_a_cell_that_nothing_keeps(self):
        with tempfile.TemporaryDirectory() as folder:
            log = Path(folder) / "log"
            log.write_text(
                "0x10 B a\n0x30 B b\nWeakMapEntry map=0x10 key=0x20 keyDelegate=0x30 value=0x40\n==========\n"
                "0x10 B WeakMap\n0x20 B Proxy\n0x30 B Object\n0x40 B Object\n0x50 B Object\n"
            )
            self.assertEqual(self.ask("0x40", str(log)), [
                "black Object 0x40", "a black root leads to it:", "* black root a black WeakMap 0x10",
                "* black root b black Object 0x30", "* key with the delegate 0x30 in map 0x10 black Proxy 0x20",
                "* value of key 0x20 in map 0x10 black Object 0x40",
                "roots that lead to it: black root a, black root b",
                "a collection frees it once all of these roots, or one thing marked *, let go",
            ])
            nothing = "no root leads to it: the next collection frees it, if the log has all roots"
            self.assertEqual(self.ask("0x50", str(log)), ["black Object 0x50", nothing])

    def test_a_cell_that_the_log_has_not(self):
        found = run_tool("check-heap-log", "--why", "0x99", self.LOG)
        self.assertEqual(found, (2, "", "check-heap-log: the log has no cell 0x99\n"))

    def test_a_log_that_is_written(self):
        with tempfile.TemporaryDirectory() as folder:
            log = Path(folder) / "log"
            with open(log, "w", encoding="ascii") as out, contextlib.redirect_stdout(out):
                load("tests/large_log.py").main(2000, 20000)
            lines = log.read_text().splitlines()
            status, output, _ = run_tool("check-heap-log", str(log))
            edges = sum(line.startswith(">") for line in lines)
            self.assertEqual((status, output), (0, f"ok 1998 {edges} 1\n"))
            # This is cell 1001, in binary 1111101001. By its second digit it is of the gray tree.
            self.assertEqual(self.ask("0x7f0000003e90", str(log))[0], "gray Object 0x7f0000003e90")


if __name__ == "__main__":
    unittest.main()
