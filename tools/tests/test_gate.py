"""Tests of tools/test, of its module checks, and of the times and budgets of the gate."""

import os
import shutil
import stat
import subprocess
import sys
import tempfile
import unittest
from contextlib import redirect_stderr, redirect_stdout
from functools import partial
from io import StringIO
from pathlib import Path

TOP = Path(__file__).resolve().parent.parent.parent
sys.dont_write_bytecode = True
sys.path[:0] = [str(TOP / "tools"), str(TOP / ".ci")]
import times  # noqa: E402 (the folders of scripts are no packages)
from checks import Check, NotRun, Outcome, run_checks  # noqa: E402
from program import find_program  # noqa: E402

# It answers `run` as examples/first.trace wants it, but wrongly with four helpers, and refuses all else.
FIRST_ALONE = f"""\
#!/bin/sh
case "$*" in
run | "run --helpers 0") cat > /dev/null; cat {TOP}/examples/first.out ;;
run*) echo wrong ;;
*) exit 2 ;;
esac
"""
# A proof, a proof of tests and an edit, as `rt ci` has them checked.
FAKE_RT_CI = """\
#!/bin/sh
echo "rt: one proved"
{folder}/rattle check --crate-name one src/lib.rt &
{folder}/rattle build --crate-name one src/lib.rt --test &
wait
mkdir {folder}/rt-edit-1
cd {folder}/rt-edit-1
{folder}/rattle check --crate-name two src/lib.rt
echo "3 passed, 1 failed"
exit 1
"""
LOG = """\
rt: zones proved
7 passed, 0 failed
gate: minutes of one processor      proof   tests   edits
gate:   zones                         1.0     0.1     4.0
gate:   roots                         2.0     0.0     1.5
gate: passed
"""


# In place of tools/test: notes its words, and fails where a file says so.
FAKE_TEST = """\
#!/bin/sh
echo "words: $*" >> tested
echo "2 passed, 0 failed"
[ ! -e "fails$#" ]
"""
# In place of `rt`: leaves a program as `rt ci` does.
FAKE_RT = """\
#!/bin/sh
echo "RT_JOBS=$RT_JOBS" > jobs
[ -e no_program ] || touch -d "now + 1 minute" crates/gczone/out/gczone
echo "36 passed, 0 failed"
[ ! -e rt_fails ]
"""


def write_fake_rt_ci(folder, seconds):
    """A command in place of `rt`, whose `rattle` takes this number of seconds of a processor."""
    busy = f"#!{sys.executable}\nimport time\nwhile time.process_time() < {seconds}: pass\n"
    write_script(Path(folder) / "rattle", busy)
    return write_script(Path(folder) / "rt", FAKE_RT_CI.format(folder=folder))


def write_script(path, text):
    path.write_text(text)
    path.chmod(path.stat().st_mode | stat.S_IXUSR)
    return path


def tell(checks, jobs=2):
    """The lines of the checks, what stands on standard error, and the numbers."""
    told, details = StringIO(), StringIO()
    with redirect_stdout(told), redirect_stderr(details):
        counts = run_checks(checks, jobs)
    return told.getvalue().splitlines(), details.getvalue(), counts


class ChecksTest(unittest.TestCase):
    def test_lines_keep_their_order_and_count(self):
        def lacks():
            raise NotRun("it needs a thing")

        checks = [
            Check("first", 1, Outcome),
            Check("second", 3, lambda: Outcome(["one\nmore of it", "two"])),
            Check("third", 2, lacks),
            Check("fourth", 9, lambda: Outcome([], ["its half: no room"])),
        ]
        lines, details, counts = tell(checks)
        self.assertEqual(
            lines,
            [
                "first: ok", "second: FAILED: one; two", "fourth: ok",
                "not run: third: it needs a thing", "not run: fourth, its half: no room", "2 passed, 1 failed",
            ],
        )
        self.assertIn("more of it", details)
        self.assertEqual(counts, (2, 1))

    def test_a_check_that_breaks_has_failed(self):
        def late():
            raise subprocess.TimeoutExpired("it", 7)

        lines, _, counts = tell([Check("broken", 1, lambda: 1 / 0), Check("late", 1, late)])
        self.assertEqual(lines[0], "broken: FAILED: ZeroDivisionError: division by zero")
        self.assertEqual(lines[1], "late: FAILED: no end within 7 s")
        self.assertEqual(counts, (0, 2))

    def test_checks_start_in_their_order(self):
        begun = []

        def begin(seconds):
            begun.append(seconds)
            return Outcome()

        checks = [Check(str(seconds), seconds, partial(begin, seconds)) for seconds in (3, 1, 2)]
        lines, _, _ = tell(checks, jobs=1)
        self.assertEqual(begun, [3, 1, 2])
        self.assertEqual(lines[:3], ["3: ok", "1: ok", "2: ok"])


class ToolTest(unittest.TestCase):
    def run_tool(self, *words):
        return subprocess.run([TOP / "tools/test", *words], capture_output=True, text=True, check=False)

    def test_a_failing_check_gives_status_1_and_the_count(self):
        with tempfile.TemporaryDirectory() as folder:
            program = write_script(Path(folder) / "program", FIRST_ALONE)
            done = self.run_tool("--program", program, "examples/first.trace")
            self.assertEqual(done.returncode, 1)
            self.assertEqual(
                done.stdout.splitlines(),
                [
                    "examples/first.trace: ok", "examples/first.trace --helpers 0: ok",
                    "examples/first.trace --helpers 4 --markers 2: FAILED: another output", "2 passed, 1 failed",
                ],
            )
            self.assertEqual(self.run_tool("--program", program, "first.trace --helpers 0").returncode, 0)

    def test_commands_of_documents_are_left_out_for_another_program(self):
        with tempfile.TemporaryDirectory() as folder:
            program = write_script(Path(folder) / "program", FIRST_ALONE)
            done = self.run_tool("--program", program, "documents, docs/HEAPLOGS.md line")
            self.assertEqual(done.returncode, 1)
            self.assertEqual(done.stdout.splitlines()[-1], "0 passed, 0 failed")
            self.assertIn("not run: documents, docs/HEAPLOGS.md line 8: ", done.stdout)

    def test_the_proved_program_must_be_the_one_that_is_run(self):
        self.assertNotEqual(self.run_tool("--proved", "--program", "/bin/true", "examples/first.trace").returncode, 0)
        if find_program().name == "gczone-unproved":
            done = self.run_tool("--proved", "examples/first.trace")
            self.assertEqual((done.returncode, done.stdout), (1, ""))
            self.assertTrue(done.stderr.startswith("test: there is no proved program"))

    def test_words_choose_checks(self):
        done = self.run_tool("--list", "full piles", "storms")
        self.assertEqual((done.returncode, done.stdout), (0, "program, storms\nprogram, full piles\n"))
        done = self.run_tool("no such check")
        self.assertEqual((done.returncode, done.stderr[:6]), (2, "test: "))
        self.assertEqual(self.run_tool("--program", "/no/such/program").returncode, 1)
        self.assertEqual(self.run_tool("--jobs", "0").returncode, 2)


class TimesTest(unittest.TestCase):
    def run_times(self, *words):
        return subprocess.run([TOP / ".ci/times.py", *words], capture_output=True, text=True, check=False)

    def test_the_processes_of_a_run_give_the_table(self):
        with tempfile.TemporaryDirectory() as folder:
            command = write_fake_rt_ci(folder, 0.7)
            table = Path(folder) / "table"
            done = self.run_times("--measure", table, command, "ci")
            self.assertEqual((done.returncode, done.stdout), (1, "rt: one proved\n3 passed, 1 failed\n"))
            lines = table.read_text().splitlines()
            self.assertEqual(lines[0].split()[-3:], ["proof", "tests", "edits"])
            self.assertEqual({line.split()[1] for line in lines[1:]}, {"one", "two"})

    def test_processor_time_is_told_by_crate_and_part(self):
        with tempfile.TemporaryDirectory() as folder:
            command = write_fake_rt_ci(folder, 0.3)
            with subprocess.Popen([command, "ci"], stdout=subprocess.DEVNULL) as running:
                meter = times.Meter(running.pid)
                while running.poll() is None:
                    meter.look()
            found = meter.minutes()
            parts = {(crate, part) for crate in found for part, minutes in found[crate].items() if minutes > 0.1 / 60}
            self.assertEqual(parts, {("one", "proof"), ("one", "tests"), ("two", "edits")})

    def test_a_run_above_twice_its_budget_fails_on_a_free_machine(self):
        with tempfile.TemporaryDirectory() as folder:
            log, budgets = Path(folder) / "log", Path(folder) / "budgets"
            log.write_text(LOG)
            budgets.write_text("# CRATE PROOF TESTS EDITS\nzones 1.0 0.0 3.0\nroots 0.9 0.0 1.5 # small\n")
            done = self.run_times("--compare", log, "--budgets", budgets)
            self.assertEqual(done.returncode, 1)
            self.assertEqual(
                done.stdout.splitlines(),
                [
                    "gate: over budget: zones, edits: 4.0 minutes, budget 3.0",
                    "gate: over budget: roots, proof: 2.0 minutes, budget 0.9",
                ],
            )
            busy = self.run_times("--compare", log, "--budgets", budgets, "--load", str(os.cpu_count()))
            self.assertEqual(busy.returncode, 0)
            budgets.write_text("zones 1.0 0.0 3.9\n")
            done = self.run_times("--compare", log, "--budgets", budgets)
            self.assertEqual((done.returncode, done.stdout), (0, "gate: roots has no budget: .ci/times.py --write\n"))

    def test_budgets_are_written_from_a_run(self):
        with tempfile.TemporaryDirectory() as folder:
            log, budgets = Path(folder) / "log", Path(folder) / "budgets"
            log.write_text(LOG)
            budgets.write_text("gz_io 1.1 2.2 3.3\ngone 1.0 1.0 1.0\n")
            self.assertEqual(self.run_times("--write", log, "--budgets", budgets).returncode, 0)
            rows = [line.split() for line in budgets.read_text().splitlines() if not line.startswith("#")]
            wanted = [["gz_io", "1.1", "2.2", "3.3"], ["zones", "1.0", "0.1", "4.0"], ["roots", "2.0", "0.0", "1.5"]]
            self.assertEqual(rows, wanted)
            self.assertEqual(self.run_times("--compare", log, "--budgets", budgets).stdout, "")

    def test_a_log_without_a_table_and_wrong_words_are_refused(self):
        with tempfile.TemporaryDirectory() as folder:
            log = Path(folder) / "log"
            log.write_text("rt: zones proved\n")
            done = self.run_times("--write", log, "--budgets", Path(folder) / "budgets")
            self.assertEqual((done.returncode, done.stderr), (1, f"times.py: {log} has no table of times\n"))
            self.assertEqual(self.run_times("--compare", Path(folder) / "none").returncode, 1)
            self.assertEqual(self.run_times("--measure", log).returncode, 2)
            self.assertEqual(self.run_times().returncode, 2)


class RunTest(unittest.TestCase):
    """The script of the gate in a tree of its own, in which `rt` and tools/test are not the true ones."""

    def setUp(self):
        self.folder = tempfile.TemporaryDirectory()
        self.addCleanup(self.folder.cleanup)
        self.top = Path(self.folder.name)
        for name in (".ci", "tools", "bin", "crates/gczone/out", "crates/zones/must-fail"):
            (self.top / name).mkdir(parents=True)
        for name in ("run", "times.py"):
            shutil.copy(TOP / ".ci" / name, self.top / ".ci" / name)
        (self.top / ".ci/budgets").write_text("zones 1.0 0.1 4.0\n")
        write_script(self.top / "tools/test", FAKE_TEST)
        write_script(self.top / "bin/rt", FAKE_RT)
        for name in ("dot", "rustc", "cargo", "cc", "c++", "make", "valgrind"):
            write_script(self.top / "bin" / name, "#!/bin/sh\n")

    def run_gate(self, words=(), **more):
        environment = {**os.environ, "PATH": f"{self.top}/bin:{os.environ['PATH']}", **more}
        environment.pop("RT_JOBS", None)
        done = subprocess.run(
            [self.top / ".ci/run", *words], env=environment, stdout=subprocess.PIPE, stderr=subprocess.STDOUT,
            text=True, check=False,
        )
        return done.returncode, done.stdout.splitlines()

    def test_all_that_passes(self):
        status, lines = self.run_gate()
        self.assertEqual((status, lines[-1]), (0, "gate: passed"))
        self.assertEqual([line for line in lines if line.endswith(" failed")][1], "36 passed, 0 failed")
        self.assertEqual(lines[0], "test: 2 passed, 0 failed")
        self.assertIn("gate: 0 must-fail edits, at most 6 a crate", lines)
        words = (self.top / "tested").read_text().splitlines()
        self.assertEqual(words[0], "words: ")
        self.assertTrue(words[1].startswith("words: --proved examples/ "))
        self.assertTrue(words[1].endswith(" test_bindings"))
        self.assertRegex((self.top / "jobs").read_text(), r"^RT_JOBS=[1-9]\d*$")

    def test_words_start_nothing(self):
        status, lines = self.run_gate(words=["--help"])
        self.assertEqual((status, lines[0]), (0, "usage: .ci/run"))
        self.assertEqual(self.run_gate(words=["all"]), (2, ["gate: .ci/run takes no words, and 'all' is one"]))
        self.assertFalse((self.top / "tested").exists())

    def test_nothing_is_proved_if_a_check_without_proof_fails(self):
        (self.top / "fails0").touch()
        status, lines = self.run_gate()
        self.assertEqual((status, lines[-1]), (1, "gate: tools/test FAILED, so nothing was proved"))
        self.assertFalse((self.top / "jobs").exists())

    def test_each_part_can_fail_the_gate(self):
        for name in ("rt_fails", "no_program", "fails5"):
            (self.top / name).touch()
            (self.top / "crates/gczone/out/gczone").unlink(missing_ok=True)
            status, lines = self.run_gate()
            self.assertEqual((status, lines[-1]), (1, "gate: FAILED"), name)
            (self.top / name).unlink()

    def test_too_many_edits_fail_the_gate(self):
        for number in range(7):
            (self.top / f"crates/zones/must-fail/{number}.edit").touch()
        status, lines = self.run_gate()
        self.assertEqual(status, 1)
        self.assertIn("gate: too many must-fail edits: zones (7)", lines)


if __name__ == "__main__":
    unittest.main()
