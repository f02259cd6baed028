"""Tests of tools/judge and of the program gcjudge.

That the outputs of examples are lawful is what their program is proved to write. What is wrong with the others was
worked out by hand from docs/COLLECTOR.md and docs/TRACE.md.
"""

import subprocess
import sys
import tempfile
import unittest
from pathlib import Path

TOP = Path(__file__).resolve().parent.parent.parent
EXAMPLES = TOP / "examples"
COLLECTORS = EXAMPLES / "collectors"
sys.dont_write_bytecode = True
sys.path[:0] = [str(TOP / "tools"), str(TOP / "tools/tests")]
from program import find_program  # noqa: E402 (the folder of tools is no package)
from test_tools import run_tool  # noqa: E402

TWO_GRAY = """\
> zone
zone 0
> comp 0
comp 0
> new r0 0 1
cell 0
> new r1 0 0
cell 1
> set r0 0 r1
ok
> hold g0 r0
ok
> drop r0
ok
> drop r1
ok
"""
# A weak slot names a cell that nothing keeps.
WEAK = """\
> zone
zone 0
> comp 0
comp 0
> new r0 0 0
cell 0
> weaken q0 r0
ok
> drop r0
ok
> collect 0
started
groups 0
"""
# Two watched cells, of which a gray slot keeps one.
WATCHED = """\
> zone
zone 0
> comp 0
comp 0
> new r0 0 0
cell 0
> new r1 0 0
cell 1
> watch r0
ok
> watch r1
ok
> hold g0 r0
ok
> drop r0
ok
> drop r1
ok
> collect 0
started
groups 0
ended 0 gray 0
told 1
swept 0 1
done
collected
> expose r0 g0
0
> unwatch r0
ok
> unwatch r0
absent
> unwatch r1
empty
"""
# The cells of an arena and one more, of which the first and the last live.
SPARSE = (
    "> zone\nzone 0\n> comp 0\ncomp 0\n> new r0 0 0\ncell 0\n"
    + "".join(f"> new r1 0 0\ncell {number}\n" for number in range(1, 64))
    + "> new r1 0 1\ncell 64\n> set r1 0 r0\nok\n> drop r0\nok\n> collect 0\nstarted\ngroups 0\nended 0 gray -\n"
    + f"swept 0 {' '.join(map(str, range(1, 64)))}\nswept 1 -\ndone\ncollected\n"
)
COMPACTED = "> compact 0\ncompacted 1 1\n"
COLLECTED = "> collect 0\nstarted\ngroups 0\nended 0 gray 0 1\nswept 0 -\ndone\ncollected\n"
# The target of a wrapper of another zone is gray, and keeps the wrapper, which is a key of a map that is black.
GRAY_DELEGATE = """\
> zone
zone 0
> zone
zone 1
> comp 0
comp 0
> comp 1
comp 1
> map r0 0
cell 0
> new r1 1 0
cell 1
> wrap r2 r1 0
0:1
> new r3 0 0
cell 2
> put r0 r2 r3
ok
> hold g0 r1
ok
> drop r1
ok
> drop r2
ok
> drop r3
ok
> collect 0 1
started
groups 0 1
ended 0 1 gray 1 2 0:1
swept 0 -
swept 1 -
done
collected
"""


def judged(transcript):
    """What gcjudge says of a transcript, and the status it ends with."""
    ran = subprocess.run(
        [find_program("gcjudge")], input=transcript.encode(), capture_output=True, timeout=60, check=False
    )
    return (ran.stdout + ran.stderr).decode(), ran.returncode


class Judge(unittest.TestCase):
    def check_wrong(self, transcript, line, kind):
        text, status = judged(transcript)
        self.assertEqual((text, status), (f"at line {line}: {kind}\n", 8))

    def test_outputs_of_examples(self):
        for trace in sorted(EXAMPLES.glob("*.trace")):
            if not trace.with_suffix(".status").exists():
                with self.subTest(trace=trace.name):
                    ran = run_tool("judge", str(trace), str(trace.with_suffix(".out")))
                    self.assertEqual(ran, (0, "lawful\n", ""))

    def check_collector(self, name, kind):
        trace = COLLECTORS / f"{name}.trace"
        right, wrong = str(COLLECTORS / "toy.py"), str(COLLECTORS / f"{name}.py")
        self.assertEqual(run_tool("judge", str(trace), "--", right), (0, "lawful\n", ""))
        status, output, _ = run_tool("judge", str(trace), "--", wrong)
        self.assertEqual(status, 1)
        self.assertIn(f": {kind}", output)

    def test_no_barrier_before_a_write(self):
        self.check_collector("no_barrier", "freed, 2 is freed and is reached: r0 > 0 > 2")

    def test_black_over_a_gray_wrapper(self):
        self.check_collector("black_over_wrapper", "colour, 0 is black or white here and has to be gray: g0 > 1:0 > 0")

    def test_a_value_by_its_map_alone(self):
        self.check_collector("value_by_map", "colour, 2 is black or white here and has to be gray: r0 > 0 > 2")

    def test_a_weak_slot_loses_a_dead_cell(self):
        ends = "ended 0 gray -\nswept 0 0\ndone\ncollected\n> deref r1 q0\nnull\n"
        self.assertEqual(judged(WEAK + ends), ("lawful\n", 0))

    def test_a_weak_slot_that_keeps_a_cell(self):
        kind = "colour, 0 is gray here and has to be white: nothing reaches it"
        self.check_wrong(WEAK + "ended 0 gray 0\n", 14, kind)
        ends = WEAK + "ended 0 gray -\nswept 0 0\ndone\ncollected\n> deref r1 q0\n0\n"
        self.check_wrong(ends, 19, 'reply, due is "null"')

    def test_watched_cells_are_told_as_they_die(self):
        self.assertEqual(judged(WATCHED), ("lawful\n", 0))

    def test_watched_cells_that_are_told_otherwise(self):
        due = 'report, due is "told 1"'
        self.check_wrong(WATCHED.replace("told 1\n", ""), 23, due)
        self.check_wrong(WATCHED.replace("told 1", "told 0 1"), 23, due)
        self.check_wrong(WATCHED.replace("told 1\n", "told 1\ntold 1\n"), 24, 'report, due is "swept 0 1"')
        self.check_wrong(WATCHED.replace("absent", "ok"), 32, 'reply, due is "absent"')
        sliced = WATCHED.replace("> collect 0", "> gc 0\ngc ok\n> slice 3")
        self.check_wrong(sliced.replace("told 1\n", "slice 3\n"), 25, 'report, due is "told .."')

    def test_a_compaction(self):
        emptied = "> get r2 r1 0\n0\n> drop r1\nok\n> drop r2\nok\n" + COLLECTED.replace("gray 0 1", "gray -")
        after = emptied.replace("swept 0 -", "swept 0 0 64")
        self.assertEqual(judged(SPARSE + COMPACTED + COMPACTED.replace("1 1", "0 0") + after), ("lawful\n", 0))
        refused = "> compact 1\nno-zone\n> gc 0\ngc ok\n> compact 0\nrunning\n"
        self.assertEqual(judged(SPARSE + refused), ("lawful\n", 0))

    def test_a_compaction_of_other_numbers(self):
        line = SPARSE.count("\n") + 2
        due = 'reply, due is "compacted 1 1"'
        self.check_wrong(SPARSE + COMPACTED.replace("1 1", "0 1"), line, due)
        self.check_wrong(SPARSE + COMPACTED.replace("1 1", "1 0"), line, due)
        self.check_wrong(SPARSE + "> compact 0\nrunning\n", line, due)
        self.check_wrong(SPARSE + COMPACTED + COMPACTED, line + 2, 'reply, due is "compacted 0 0"')

    def test_a_lawful_transcript(self):
        self.assertEqual(judged(TWO_GRAY + COLLECTED), ("lawful\n", 0))
        self.assertEqual(judged(""), ("lawful\n", 0))

    def test_a_transcript_that_is_cut(self):
        cut = TWO_GRAY + COLLECTED.removesuffix("collected\n")
        self.assertEqual(judged(cut), ("gcjudge: the transcript ends within an answer\n", 9))

    def test_a_line_of_no_language(self):
        self.assertEqual(judged(TWO_GRAY + "> zones\n"), ("gcjudge: line 17: bad line\n", 3))

    def test_an_answer_that_is_not_whole(self):
        self.check_wrong("> zone\n> comp 0\n", 2, 'end, the answer before is not whole, due is "zone 0"')

    def test_a_line_too_many(self):
        self.check_wrong("> zone\nzone 0\nzone 0\n", 3, "end, no line is due")

    def test_another_reply(self):
        self.check_wrong("> zone\nzone 1\n", 2, 'reply, due is "zone 0"')

    def test_a_gray_cell_that_is_freed(self):
        self.check_wrong(
            TWO_GRAY + COLLECTED.replace("swept 0 -", "swept 0 1"), 21, "freed, 1 is freed and is reached: g0 > 0 > 1"
        )

    def test_another_arena(self):
        self.check_wrong(
            TWO_GRAY + COLLECTED.replace("swept 0 -", "swept 1 -"), 21, "arena, 1 is not to be swept, due is arena 0"
        )

    def test_done_is_left_out(self):
        self.check_wrong(TWO_GRAY + COLLECTED.replace("done\n", ""), 22, 'report, due is "done"')

    def test_marking_that_begins_unsaid_or_twice(self):
        self.check_wrong(TWO_GRAY + COLLECTED.replace("started\n", ""), 18, 'report, due is "started"')
        twice = TWO_GRAY + COLLECTED.replace("started\n", "started\nstarted\n")
        self.check_wrong(twice, 19, 'report, due is "groups .."')

    def test_what_is_made_before_marking_begins(self):
        made = TWO_GRAY + "> gc 0\ngc ok\n> new r0 0 0\ncell 2\n> drop r0\nok\n> finish\nstarted\ngroups 0\n"
        ends = "ended 0 gray 0 1\nswept 0 2\ndone\nslice 6\n"
        self.assertEqual(judged(made + ends), ("lawful\n", 0))
        self.check_wrong(made + ends.replace("swept 0 2", "swept 0 -"), 27, "kept, 2 is dead and is not freed")

    def test_more_units_than_the_bound(self):
        spent = TWO_GRAY + "> gc 0\ngc ok\n> slice 1000\nslice 1000\n"
        # 1 arena
        self.check_wrong(spent, 20, "units, the collection has taken 1000 units, and may take 1")
        # 1 arena, twice 2 cells, 64, four times 1 zone
        spent = spent.replace("> slice 1000\n", "> slice 1000\nstarted\n")
        self.check_wrong(spent, 21, "units, the collection has taken 1000 units, and may take 73")

    def test_groups_that_do_not_part_the_zones(self):
        self.check_wrong(
            TWO_GRAY + COLLECTED.replace("groups 0", "groups 0 1"),
            19,
            "groups, each of the zones 0 has to be in one of them, and no other",
        )

    def test_a_key_that_its_target_keeps(self):
        self.assertEqual(judged(GRAY_DELEGATE), ("lawful\n", 0))
        self.check_wrong(
            GRAY_DELEGATE.replace("gray 1 2 0:1", "gray 1 2"),
            30,
            "colour, 0:1 is black or white here and has to be gray: r0 > 0 > 0:1",
        )
        self.check_wrong(
            GRAY_DELEGATE.replace("groups 0 1", "groups 0 | 1"),
            29,
            "groups, zone 1 ends after zone 0, out of which 0:1 leads, which is a key and whose target is not black",
        )

    def test_a_collection_that_is_given_up(self):
        given_up = TWO_GRAY + "> gc 0\ngc ok\n> reset\nstopped 0\nreset ok\n> colours\ngray -\n> reset\nidle\n"
        self.assertEqual(judged(given_up), ("lawful\n", 0))
        self.check_wrong(given_up.replace("stopped 0", "done"), 20, 'report, due is "stopped 0"')
        self.check_wrong(given_up.replace("gray -", "gray 0"), 23, "colour, 0 is gray here and has to be black")
        cut = given_up.replace("reset ok\n", "")
        self.check_wrong(cut, 21, 'end, the answer before is not whole, due is "reset ok"')

    def test_a_reset_of_a_collection_that_sweeps(self):
        ended = TWO_GRAY + "> gc 0\ngc ok\n> slice 20\nstarted\ngroups 0\nended 0 gray 0 1\nslice 20\n> reset\n"
        self.assertEqual(judged(ended + "swept 0 -\ndone\nreset ok\n"), ("lawful\n", 0))
        self.check_wrong(ended + "stopped\n", 25, 'report, due is "swept 0 -"')

    def test_an_output_that_looks_as_a_trace(self):
        with tempfile.TemporaryDirectory() as folder:
            trace, output = Path(folder, "trace"), Path(folder, "output")
            trace.write_text("zone\n")
            output.write_text("zone 0\n> zone\nzone 1\n")
            status, text, _ = run_tool("judge", str(trace), str(output))
        self.assertEqual(text, 'at line 2, for line 1 of the trace, "zone": end, no line is due\n')
        self.assertEqual(status, 1)

    def test_random_traces(self):
        words = ["--collector", f"{find_program()} run", "--judge", "--dumps", "--seeds", "10-19"]
        found = run_tool("check-step", *words)
        self.assertEqual(found[0], 0)
        self.assertRegex(found[1], "^10 traces of [0-9]+ lines are lawful\n$")
        self.assertEqual(run_tool("check-step", *words, "--jobs", "3"), found)

    def test_the_least_trace_of_a_wrong_collector(self):
        with tempfile.TemporaryDirectory() as folder:
            loses = Path(folder, "loses")
            loses.write_text(f"#!/bin/sh\n{find_program()} run | sed 's/^swept \\([0-9]*\\) .*/swept \\1 -/'\n")
            loses.chmod(0o755)
            status, output, _ = run_tool("check-step", "--collector", str(loses), "--judge", "--seeds", "0-9")
        *trace, verdict = output.splitlines()
        self.assertEqual(status, 1)
        self.assertLess(len(trace), 9)
        self.assertRegex(verdict, ": kept, [0-9:]+ is dead and is not freed$")


if __name__ == "__main__":
    unittest.main()
