"""Tests of the tools that read traces and heap logs: what they say where something is wrong, and what they find."""

import contextlib
import io
import os
import re
import runpy
import shutil
import subprocess
import sys
import tempfile
import unittest
from pathlib import Path
from unittest import mock

TOP = Path(__file__).resolve().parent.parent.parent
TOOLS = TOP / "tools"
EXAMPLES = TOP / "examples"
sys.dont_write_bytecode = True
sys.path.insert(0, str(TOOLS))
import command_line  # noqa: E402 (the folder of tools is no package)
from program import find_program  # noqa: E402
from trace_model import Model, answers, replay, split_lines  # noqa: E402

FIRST = str(EXAMPLES / "first.trace")
FIRST_OUTPUT = str(EXAMPLES / "first.out")
HEAP_LOG = str(EXAMPLES / "heap.log")
# Each tool with words that it takes, {} in the place of what it reads, and whether that is a trace or a log.
READERS = [
    ("draw", ["heap", "{}", "--dot"], "trace"),
    ("draw", ["timeline", "{}"], "trace"),
    ("explain", ["{}"], "trace"),
    ("why", ["{}", "1", "0"], "trace"),
    ("stats", ["{}"], "trace"),
    ("page", ["{}"], "trace"),
    ("prompt", ["{}"], "trace"),
    ("versus", ["--traces", "{}"], "trace"),
    ("heap-log", ["{}"], "log"),
    ("check-heap-log", ["{}"], "log"),
]
# Each tool that runs a program, with words that it takes.
RUNNERS = [
    ("draw", ["heap", FIRST, "--dot"]), ("draw", ["timeline", FIRST]), ("draw", ["pictures", "--check"]),
    ("explain", [FIRST]), ("why", [FIRST, "5", "1"]), ("stats", [FIRST]), ("page", [FIRST]),
    ("page", ["--documents", "--check"]),
    ("check-heap-log", [HEAP_LOG]), ("check-piles", []), ("check-storms", ["--count", "1"]),
    ("check-step", ["--collector", "true", "--seeds", "0"]), ("judge", [FIRST, FIRST_OUTPUT]),
]
# All scripts that one runs, with words that each needs before any other.
WORDS = {
    **dict(RUNNERS), "heap-log": [HEAP_LOG], "prompt": [FIRST], "versus": ["1", "1"], "check-faults": [],
    "after-edit": [], "uses": ["replay"], "lint": [], "test": [], "prove": [], "build-unproved": [],
    "wrong-bodies": [],
    "check-bindings": [], "spidermonkey/check-logs": [], "../bench/speed.py": [], "../bench/helpers.py": [],
    "../bench/markers.py": [], "../bench/dumps.py": [], "../bench/engines.py": [], "../bench/calls.py": [],
    "../bench/latency.py": [], "../bench/memory.py": [], "../bench/compaction.py": [], "../bench/unchecked.py": [],
    "../bench/lines.py": [],
}
SHELL = ["find-program"]


def scripts():
    """The scripts that are there, as words after tools/."""
    for folder in ("tools", "tools/spidermonkey", "bench"):
        for path in (TOP / folder).iterdir():
            if path.is_file() and os.access(path, os.X_OK):
                yield os.path.relpath(path, TOOLS)


def run_tool(name, *words, data=b"", path=None):
    """The status of a tool, what it prints, and what it writes to standard error. It runs in this process."""
    output, error = (io.TextIOWrapper(io.BytesIO(), write_through=True) for _ in range(2))
    with (
        mock.patch.object(sys, "argv", [name, *words]), mock.patch.object(sys, "stdout", output),
        mock.patch.object(sys, "stderr", error), mock.patch.object(sys, "stdin", io.TextIOWrapper(io.BytesIO(data))),
        mock.patch.dict(os.environ, {"PATH": path} if path else {}), contextlib.chdir(TOP),
    ):
        try:
            runpy.run_path(str(TOOLS / name), run_name="__main__")
        except SystemExit as end:
            status = end.code
    return status, *(stream.buffer.getvalue().decode() for stream in (output, error))


def run_process(folder, name, *words, command=(sys.executable,), **how):
    """A tool in a process of its own, as one runs it."""
    return subprocess.run([*command, folder / name, *words], stderr=subprocess.PIPE, check=False, timeout=60, **how)


class Tools(unittest.TestCase):
    """What all tests need: a folder, and a look at how a tool ends."""

    def setUp(self):
        holder = tempfile.TemporaryDirectory()
        self.addCleanup(holder.cleanup)
        self.folder = Path(holder.name)

    def file(self, name, data):
        path = self.folder / name
        path.write_bytes(data if isinstance(data, bytes) else data.encode())
        return str(path)

    def check_refuses(self, calls, *wanted):
        """Each call ends with a message, and each wanted part is in it."""
        for call in calls:
            with self.subTest(call=call):
                status, output, error = run_tool(*call)
                self.assertIn(status, (1, 2), error)
                message = ((error or output).splitlines() or [""])[-1]
                self.assertTrue(message.startswith(f"{Path(call[0]).name}: "), error)
                self.assertNotIn("Traceback", output + error)
                for part in wanted:
                    self.assertIn(part, message)


class WrongInput(Tools):
    def read_by_all(self, path):
        return [[name, *(path if word == "{}" else word for word in words)] for name, words, _ in READERS]

    def test_no_file(self):
        self.check_refuses(self.read_by_all("/nowhere/file"), "/nowhere/file: No such file or directory")

    def test_a_folder(self):
        self.check_refuses(self.read_by_all(str(EXAMPLES)), "Is a directory")

    def test_an_empty_file(self):
        empty = self.file("empty", "")
        traces = [call for call, (_, _, kind) in zip(self.read_by_all(empty), READERS) if kind == "trace"]
        logs = [call for call, (_, _, kind) in zip(self.read_by_all(empty), READERS) if kind == "log"]
        self.check_refuses(traces, f"{empty} is empty")
        self.check_refuses(logs, f"{empty}: it ends before its heap")

    def test_binary_bytes(self):
        binary = self.file("binary", bytes(range(255, -1, -1)) * 9)
        calls = [call for call in self.read_by_all(binary) if call[0] != "explain"]
        self.check_refuses(calls, f"{binary}: line 1 is")
        status, output, error = run_tool("explain", binary)
        self.assertEqual((status, error), (1, ""))
        self.assertIn("line 1: ", output)
        self.assertIn("a trace is ASCII", output)

    def test_a_trace_that_is_no_log_and_a_log_that_is_no_trace(self):
        for name, words, kind in READERS:
            if name != "explain":
                other = HEAP_LOG if kind == "trace" else FIRST
                self.check_refuses([[name, *(other if word == "{}" else word for word in words)]], "line 1 is")

    def test_what_is_no_record(self):
        for data in (b"", bytes(range(256)), b"{}", b"[1]", b'{"seed": 1, "tally": 2}'):
            self.check_refuses([["versus", "--table", self.file("record", data)]], "is no record: --record writes one")
        self.check_refuses([["versus", "--table", "/nowhere/file"]], "/nowhere/file: No such file")

    def test_no_line_of_the_trace(self):
        calls = [["draw", "heap", FIRST, "999"], ["explain", FIRST, "999"], ["explain", FIRST, "2-10"]]
        self.check_refuses([*calls, ["why", FIRST, "10", "0"]], "there is no line ", "the trace has lines 1 to 9")
        self.check_refuses([["draw", "heap", FIRST, "0"], ["why", FIRST, "x", "0"]], "is no number from 1 on")
        self.check_refuses([["explain", FIRST, "0"]], "there is no line 0")
        self.check_refuses([["explain", FIRST, "x"]], "'x' is no line")
        self.check_refuses([["explain", FIRST, "5-3"]], "line 3 stands before line 5")

    def test_standard_input_is_read(self):
        data = Path(FIRST).read_bytes()
        for words in (["explain", "{}"], ["draw", "timeline", "{}"], ["why", "{}", "5", "1"]):
            read = [run_tool(*(path if word == "{}" else word for word in words), data=data) for path in ("-", FIRST)]
            self.assertEqual(read[0], read[1])
        self.assertEqual(run_tool("heap-log", "-", data=Path(HEAP_LOG).read_bytes()), run_tool("heap-log", HEAP_LOG))


class WrongWords(Tools):
    def test_each_script_is_tested_here(self):
        self.assertEqual(sorted(scripts()), sorted([*WORDS, *SHELL]))

    def test_each_script_is_in_the_help(self):
        text = subprocess.run([TOP / "gczone", "help"], capture_output=True, text=True, stdin=subprocess.DEVNULL).stdout
        # ./gczone runs two of them itself, and the page of one folder has its own.
        for name in sorted(set(scripts()) - {"prove", "test", "spidermonkey/check-logs"}):
            path = os.path.relpath(TOOLS / name, TOP)
            self.assertRegex(text, rf"(?<![\w/]){re.escape(path)} ")
        self.assertLess(max(map(len, text.splitlines())), 121)

    def test_a_script_of_the_shell(self):
        def run(*words):
            done = run_process(TOOLS, *words, command=(), stdout=subprocess.PIPE)
            return done.returncode, done.stdout.decode(), done.stderr.decode()

        self.assertEqual(run("find-program", "--version"), run_tool("draw", "--version"))
        status, output, error = run("find-program", "--help")
        self.assertEqual((status, output.splitlines()[0], error), (0, "usage: find-program [CRATE]", ""))
        for words in (["nothing"], ["gczone", "nothing"]):
            wanted = (2, "", "find-program: 'nothing' is no crate of crates.txt\n")
            self.assertEqual(run("find-program", *words), wanted)

    def test_help_and_version(self):
        said = subprocess.run([TOP / "gczone", "version"], capture_output=True, text=True, stdin=subprocess.DEVNULL)
        version = said.stdout.splitlines()[0]
        self.assertRegex(version, r"^gczone \d+[.]\d+[.]\d+$")
        for name in WORDS:
            with self.subTest(tool=name), mock.patch.object(command_line, "version", lambda: version):
                self.assertEqual(run_tool(name, "--version"), (0, version + "\n", ""))
                status, output, error = run_tool(name, "--help")
                self.assertEqual((status, error), (0, ""))
                self.assertTrue(output.startswith(f"usage: {Path(name).name} "))
                self.assertNotIn("--try", output)
        self.assertEqual(run_tool("draw", "--version"), (0, version + "\n", ""))

    def test_a_word_that_is_unknown_is_named(self):
        calls = [[name, *words, "--frobnicate"] for name, words in [*WORDS.items(), *RUNNERS]]
        self.check_refuses(calls, "unrecognized arguments: --frobnicate")
        self.check_refuses([["lint", "frobnicate"]], "no rule is named frobnicate: ", "long-line")
        self.check_refuses([["uses", "frobnicate"]], "is named frobnicate")
        self.check_refuses([["uses", "--dead", "frobnicate"]], "crates.txt has no crate frobnicate")
        self.check_refuses([["after-edit", "--since", "frobnicate"]], "frobnicate")
        self.check_refuses([["prove", "frobnicate"]], "frobnicate is no crate of crates.txt")
        self.check_refuses([["build-unproved", "frobnicate"]], "frobnicate is no program of this repository")
        self.check_refuses([["wrong-bodies", "frobnicate"]], "frobnicate is no crate in examples/wrong_bodies")
        self.check_refuses([["test", "frobnicate"]], "no check is named frobnicate: see --list")
        benches = ("speed", "helpers", "markers", "dumps", "engines", "lines")
        calls = [[f"../bench/{name}.py", "--only", "frobnicate"] for name in benches]
        self.check_refuses(calls, "'frobnicate' is none of ")
        self.check_refuses([["draw", "heep", FIRST]], "'heep'", "'heap', 'arenas', 'timeline'")

    def test_a_word_that_is_missing_is_named(self):
        calls = [["draw"], ["explain"], ["why"], ["why", FIRST, "1"], ["stats"], ["heap-log"], ["check-heap-log"]]
        self.check_refuses(calls, "are required")
        self.check_refuses([["draw", "heap"]], "a trace is needed")
        self.check_refuses([["page"]], "either a TRACE or --documents is needed")
        self.check_refuses([["versus"], ["versus", "1"]], "COUNT and SEED are needed")
        self.check_refuses([["uses"]], "a name is wanted")
        self.check_refuses([["check-step"]], "either --model or --collector is needed")

    def test_numbers(self):
        for words in (["check-storms", "--count"], ["check-step", "--jobs"], ["check-faults", "--sizes"]):
            self.check_refuses([[*words, "-1"], [*words, "many"]])
        self.check_refuses([["check-step", "--seeds", "5-3"], ["check-step", "--seeds", "-"]], "no range of seeds")
        self.check_refuses([["check-faults", "--helpers", "7"]], "no list of numbers from 0 to 4")


class WrongProgram(Tools):
    def with_program(self, path):
        return [[name, *words, "--program", str(path)] for name, words in RUNNERS]

    def test_no_program(self):
        self.check_refuses(self.with_program("/nowhere/gczone"), "/nowhere/gczone is not there")
        self.check_refuses([["versus", "1", "1", "--program", "/nowhere/gczone"]], "/nowhere/gczone is not there")
        self.check_refuses(self.with_program(EXAMPLES), "is no program")
        self.check_refuses(self.with_program(FIRST), "is no program")

    def test_a_program_that_fails(self):
        self.check_refuses(self.with_program("/bin/false"))

    def test_a_program_that_answers_nothing(self):
        self.check_refuses(self.with_program("/bin/true"))

    def test_a_program_that_answers_something_else(self):
        answer = "echo ended 0 gray 7; echo swept 9 9; echo 3:4"
        wrong = self.file("wrong", f"#!/bin/sh\nwhile read -r line; do {answer}; done\n")
        os.chmod(wrong, 0o755)
        self.check_refuses(self.with_program(wrong))

    def test_a_program_that_is_ended_by_a_signal(self):
        killed = self.file("killed", "#!/bin/sh\nkill -ILL $$\n")
        os.chmod(killed, 0o755)
        self.check_refuses([["draw", "timeline", FIRST, "--program", killed]], "ended by SIGILL")

    def test_text_on_standard_error_is_no_failure(self):
        noisy = self.file("noisy", f'#!/bin/sh\necho NOT PROVED >&2\nexec {find_program()} "$@"\n')
        os.chmod(noisy, 0o755)
        for words in (["draw", "heap", FIRST, "5", "--dot"], ["draw", "timeline", FIRST], ["explain", FIRST]):
            self.assertEqual(run_tool(*words, "--program", noisy), run_tool(*words))

    def test_no_program_can_be_built(self):
        os.symlink(TOP / "crates.txt", self.folder / "crates.txt")
        (self.folder / "tools").mkdir()
        for path in TOOLS.iterdir():
            if path.is_file():
                shutil.copy(path, self.folder / "tools")
        how = {"env": {"PATH": "/usr/bin:/bin"}, "stdout": subprocess.PIPE}
        done = run_process(self.folder / "tools", "explain", FIRST, **how)
        message = done.stderr.decode().splitlines()
        self.assertEqual((done.returncode, done.stdout), (1, b""))
        self.assertIn("explain: there is no gczone that is newer than its sources", message[-1])


class Drawing(Tools):
    def test_no_graphviz(self):
        status, output, error = run_tool("draw", "heap", FIRST, "--program", str(find_program()), path="/nowhere")
        self.assertEqual((status, output), (1, ""))
        self.assertIn("draw: Graphviz's dot is not found", error)

    def test_graphviz_that_fails(self):
        dot = self.file("dot", "#!/bin/sh\necho no memory >&2\nexit 3\n")
        os.chmod(dot, 0o755)
        status, _, error = run_tool("draw", "heap", FIRST, path=f"{self.folder}:/bin:/usr/bin")
        self.assertEqual((status, error), (1, "draw: Graphviz's dot ends with status 3: no memory\n\n"))

    def test_a_heap_and_a_file_that_cannot_be_written(self):
        _, output, _ = run_tool("draw", "heap", str(EXAMPLES / "expose.trace"), "11", "--dot")
        self.assertIn('"1" [shape=ellipse, style=filled, fillcolor="#b8b8b8", fontcolor=black]', output)
        self.assertIn('g3 -> "0"', output)
        self.check_refuses([["draw", "growth", "--output", "/nowhere/file"]], "/nowhere/file: No such file")

    def test_nobody_reads_on(self):
        reading, writing = os.pipe()
        os.close(reading)
        with os.fdopen(writing, "wb") as output:
            done = run_process(TOOLS, "explain", FIRST, stdout=output)
        self.assertEqual((done.returncode, done.stderr), (1, b""))


class Placement(unittest.TestCase):
    """Where the model of the tools puts cells: docs/TRACE.md, 'An arena has 64 slots'."""

    def test_the_lowest_free_slot_of_an_arena_that_is_not_out(self):
        model = Model()
        for words in (["zone"], ["comp", "0"], *(["new", "r0", "0", "0"] for _ in range(65))):
            model.command(words, "")
        self.assertEqual([model.cells[name].place for name in ("0", "63", "64")], [(0, 0), (0, 63), (1, 0)])
        model.collecting = {0}
        model.report("ended 0 gray -", ["3", "64"])
        model.command(["new", "r1", "0", "0"], "")
        self.assertEqual(model.cells["65"].place, (2, 0))
        model.report("swept 0 3", ())
        model.command(["new", "r1", "0", "0"], "")
        self.assertEqual(model.cells["66"].place, (0, 3))
        model.report("swept 1 64", ())
        model.command(["new", "r1", "0", "0"], "")
        self.assertEqual(model.cells["67"].place, (1, 0))

    def test_what_examples_sweep_lies_where_the_model_put_it(self):
        for path in sorted(EXAMPLES.rglob("*.trace")):
            lines = [line.decode() for line in split_lines(path.read_bytes())]
            output = path.with_suffix(".out").read_text().splitlines()
            for _, own, model in replay(lines, output):
                arenas = {line.split(" ")[1]: line.split(" ")[2:] for line in own if line.startswith("swept ")}
                dead = {cell.name for cell in model.slots.values() if model.cells.get(cell.name) is not cell}
                swept = {name for names in arenas.values() for name in names}
                self.assertFalse(dead & swept - model.cells.keys(), path)


class Steps(Tools):
    """tools/check-step."""

    def collector(self, text):
        path = self.file("collector", f"#!/bin/sh\nprogram={find_program()}\n{text}\n")
        os.chmod(path, 0o755)
        return path

    def test_the_program_agrees(self):
        words = ["--collector", f"{find_program()} run", "--slices", "--dumps", "--seeds", "10-19"]
        found = run_tool("check-step", *words)
        self.assertEqual(found, (0, "10 traces of 610 lines agree\n", ""))
        self.assertEqual(run_tool("check-step", *words, "--jobs", "3"), found)

    def test_the_least_trace_is_shown(self):
        # It loses wrappers among gray names. So one has to be gray, and each of these lines is needed for that: the
        # register that holds it gets a map.
        loses = self.collector("$program run | sed '/^gray/s/ [0-9]*:[0-9]*//g; /^gray$/s/$/ -/'")
        least = ["zone", *["comp 0"] * 3, "new r5 0 1", "wrap r0 r5 1", "hold g3 r0", "map r0 2", "collect 0"]
        wanted = "".join(line + "\n" for line in [*least, "colours"]) + (
            "check-step: seed 4: line 10, 'colours': the specification answers 'gray 1:0', the collector 'gray -'\n"
        )
        for more in (["--seeds", "4"], ["--seeds", "0-9", "--jobs", "3"]):
            self.assertEqual(run_tool("check-step", "--collector", loses, "--slices", *more), (1, wanted, ""))
        status, output, _ = run_tool("check-step", "--collector", loses, "--slices", "--seeds", "4", "--whole")
        self.assertEqual(status, 1)
        self.assertGreater(len(output.splitlines()), 61)

    def test_a_collector_that_ends_early(self):
        ends = self.collector("$program run | { grep -q '^cell 1$' && exit 7; exit 0; }")
        status, output, _ = run_tool("check-step", "--collector", ends, "--seeds", "0", "--whole")
        self.assertEqual((status, output.splitlines()[-1]), (1, "check-step: seed 0: the collector ends with status 7"))

    def test_a_collector_that_is_none(self):
        self.check_refuses([["check-step", "--collector", "/nowhere/file"]], "/nowhere/file is not there")
        for more in ([], ["--dumps"], ["--slices"]):
            status, output, error = run_tool("check-step", "--collector", "/bin/cat", "--seeds", "0", *more)
            self.assertEqual((status, error), (1, ""))
            self.assertIn("the specification answers 'gray -', the collector 'colours'", output)

    MODEL = """
class Graph:
    def __init__(self):
        self.regs, self.slots, self.counts = [], [], {"zone": 0, "comp": 0}
def parse(line, stage):
    return line.decode().split(" ")[0]
def step(graph, word, stage):
    graph.counts[word] += 1
    return True, f"{word} {graph.counts[word] - 1}"
def close(graph, starts, delegates):
    return set(starts)
text = str
"""

    # With one line a trace has its zones and compartments alone, and `colours`.
    def test_a_model(self):
        words = ["--seeds", "0-9", "--lines", "1", "--model"]
        status, output, error = run_tool("check-step", *words, self.file("model.py", self.MODEL))
        self.assertEqual((status, output.split(" ")[0], error), (0, "10", ""))
        wrong = self.file("wrong.py", self.MODEL.replace('"comp": 0', '"comp": 7'))
        status, output, error = run_tool("check-step", *words, wrong)
        # One line is enough: without a zone the compartment is refused, and the model numbers it all the same.
        wanted = "check-step: seed 0: line 1, 'comp 1': the specification answers 'no-zone', the model 'comp 7'"
        self.assertEqual((status, output.splitlines(), error), (1, ["comp 1", wanted], ""))

    def test_a_model_that_is_none(self):
        for text in ("", "x = ", "class Graph:\n    regs = slots = []\n"):
            path = self.file("model.py", text)
            status, output, error = run_tool("check-step", "--model", path, "--seeds", "0")
            self.assertIn(status, (1, 2))
            self.assertIn("model", output + error)
            self.assertNotIn("Traceback", error)


class HeapLogs(Tools):
    LOG = (
        "# Roots.\n0x10 B exact-Object\n0x40 B atom\n# Weak maps.\n"
        "WeakMapEntry map=0x20 key=0x30 keyDelegate=0x10 value=0x50\n"
        "WeakMapEntry map=0x20 key=(nil) keyDelegate=0x0 value=0x50\n"
        "WeakMapEntry map=0x20 key=0x99 keyDelegate=0x0 value=0x50\n"
        "==========\n# zone\n0x10 B Object <a>\n> 0x20 B wm\n> 0x40 B **x y**\n"
        "0x20 B WeakMap\n0x30 B Proxy\n0x50 G Object <b>\n> 0x60 W young\n"
    )
    # The cells in the log's order: 0 is 0x10, 1 is 0x20, 2 is 0x30, 3 is 0x50, and without a line 4 is 0x40 and 5 0x60.
    DUMP = (
        "cell 0 b\ncell 1 b\ncell 2 b\ncell 3 g\ncell 4 b\ncell 5 b\ncell 0:0 b\n"
        "edge 0 1\nedge 0 4\nweak 1 0:0 3\nend\n"
    )
    TABLE = [
        "black Object 0x10", "black WeakMap 0x20", "black Proxy 0x30", "gray Object 0x50", "black cell 0x40",
        "uncoloured cell 0x60", "black Proxy 0x30 -> black Object 0x10, what it wraps",
        "black Object 0x10 -> black WeakMap 0x20 by field wm", "black Object 0x10 -> black cell 0x40 by field **x y**",
        "black WeakMap 0x20, black Proxy 0x30 as key with the delegate black Object 0x10 -> gray Object 0x50 as value",
        "the end",
    ]

    def test_a_dump_and_its_table(self):
        log, dump, table = (str(self.folder / name) for name in ("log", "dump", "table"))
        self.file("log", self.LOG)
        status, output, error = run_tool("heap-log", log, dump, table)
        self.assertEqual((status, output), (0, ""))
        self.assertEqual(Path(dump).read_text(), self.DUMP)
        rows = [f"{number}\t{words}" for number, words in enumerate(self.TABLE, 1)]
        self.assertEqual(Path(table).read_text().splitlines(), rows)
        notes = [note.split(" ")[1:3] for note in error.splitlines()]
        self.assertEqual(notes, [["1", "weak"], ["1", "weak"], ["1", "cells"], ["1", "cells"], ["2", "roots,"]])

    def test_a_fault(self):
        status, output, _ = run_tool("check-heap-log", self.file("log", self.LOG))
        self.assertEqual((status, output), (8, self.TABLE[9] + "\n"))

    def test_two_colours(self):
        twice = self.LOG.replace("> 0x20 B wm", "> 0x20 G wm").replace("0x50 G", "0x50 B")
        status, output, _ = run_tool("check-heap-log", self.file("log", twice))
        self.assertEqual((status, output), (8, "ok 7 2 1\ntwo colours: 0x20 is B at line 13, and G at line 11\n"))

    def test_lines_that_are_none(self):
        head = "==========\n0x1 B x\n"
        edges = (">x0x12 B a", "> 0x12 BB a", ">", "> ", "> 0x12 B", "> 0x12  a", ">0x12 B a", "> 0xg B a")
        for line in (*edges, "0x", "0x12", "WeakMapEntry"):
            self.check_refuses([["heap-log", self.file("log", f"{head}{line}\n")]], "line 3 is no ")
        self.check_refuses([["heap-log", self.file("log", f"{head}0x1 B y\n")]], "line 3 has the cell 0x1 again")
        self.check_refuses([["heap-log", self.file("log", "==========\n> 0x1 B y\n")]], "line 2 has an edge of no cell")

    def test_too_many_keys_of_a_delegate(self):
        cells = "".join(f"0x{number:x} B k\n" for number in range(16, 16 + 300))
        entry = "WeakMapEntry map=0x10 key=0x{:x} keyDelegate=0x11 value=0x10\n"
        for count in (256, 257):
            entries = "".join(entry.format(number) for number in range(18, 18 + count))
            status, _, error = run_tool("heap-log", self.file("log", f"{entries}==========\n{cells}"))
            self.assertEqual(status, 0 if count == 256 else 2)
        self.assertIn("0x11 is the delegate of more than 256 keys", error)


class Answers(unittest.TestCase):
    def test_lines_of_each_command(self):
        output = ["zone 0", "groups 0", "done", "collected", "cell 0 b", "end", "marking", "gc ok"]
        told = answers(["zone", "collect 0", "dump", "dump", "gc 0"], output)
        self.assertEqual(told, [output[:1], output[1:4], output[4:6], output[6:7], output[7:]])
        self.assertEqual(answers(["zone", "zone"], ["zone 0"]), [["zone 0"]])


if __name__ == "__main__":
    unittest.main()
