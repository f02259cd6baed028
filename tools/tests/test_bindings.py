"""Tests of the C library, and of the Rust package and the Python module over it.

The library is that of tools/find-program, which builds one without its proof if there is none. What the machine lacks,
as a C compiler, cargo or valgrind, counts as skipped.
"""

import os
import random
import re
import shutil
import subprocess
import sys
import tempfile
import textwrap
import unittest
from pathlib import Path

TOP = Path(__file__).resolve().parent.parent.parent
BINDINGS = TOP / "bindings"
CHECK = TOP / "tools/check-bindings"
SECONDS = 600
VALGRIND = ("valgrind", "-q", "--leak-check=full", "--error-exitcode=9")
# At least the product of the first two is how many random commands go through C and through Rust; Python takes some of
# the traces. A pile stands before as many random commands as the last one says.
SEEDS, COMMANDS, PYTHON_SEEDS, PILE_EACH = 25, 4000, 3, 600
# What some of their answers are, so that the commands do what they can do.
ANSWERS = (
    "groups .*[|]", "ended .* gray [0-9]", "told ", "swept [0-9]+ [0-9]", "stopped ", "reset ok", "slice [1-9]",
    "weak ", "compacted [1-9][0-9]* [1-9]", "null", "absent", "idle", "empty", "kind", "no-field", "cross", "running",
    "marking", "no-comp", "no-zone",
)
# What the list machine prints, whatever the slices: 8 closures keep 160 numbers of the 12,000 that were made.
LISTS = re.compile(
    r"total 93120\nevaluated: (\d+) numbers, (\d+) let go by \d+ collections\n"
    r"with closures: 160 numbers, 11840 let go by \d+ collections\n"
    r"without: 0 numbers, 12000 let go by \d+ collections\n"
)
CYCLES = """gray, and freed by the heap alone: 0
let go: ring bell
freed then: 2
let go without the page's owner: page menu item
freed then: 3 cells left: 0
"""

sys.path.insert(0, str(TOP / "tools"))
sys.dont_write_bytecode = True
from program import Missing, find_program  # noqa: E402 (the tools lie in another folder)


def run(*words, **options):
    return subprocess.run(
        words, stdin=options.pop("stdin", subprocess.DEVNULL), stdout=subprocess.PIPE, stderr=subprocess.STDOUT,
        text=True, timeout=SECONDS, check=False, **options,
    )


def version():
    """The version that the changelog names."""
    return run(TOP / "gczone", "version").stdout.splitlines()[0].removeprefix("gczone ")


class DeclarationTest(unittest.TestCase):
    def test_all_declarations_agree(self):
        done = run(CHECK)
        self.assertEqual((done.returncode, done.stdout[:15]), (0, "check-bindings:"), done.stdout)

    def refused(self, old, new):
        """What is printed of a header in which a text is another one."""
        header = (BINDINGS / "c/gczone.h").read_text(encoding="utf-8")
        self.assertEqual(header.count(old), 1)
        with tempfile.TemporaryDirectory() as folder:
            changed = Path(folder, "gczone.h")
            changed.write_text(header.replace(old, new), encoding="utf-8")
            done = run(CHECK, "--header", changed)
        self.assertEqual(done.returncode, 1)
        return done.stdout

    def test_another_type_is_found(self):
        told = self.refused("gcz_begin(gcz_t *gcz, uint64_t", "gcz_begin(gcz_t *gcz, uint32_t")
        self.assertIn("call gcz_begin", told)

    def test_another_order_of_fields_is_found(self):
        told = self.refused("    uint64_t zones;\n    size_t count;", "    size_t count;\n    uint64_t zones;")
        self.assertIn("struct report", told)

    def test_another_number_is_found(self):
        self.assertIn("constant BAD_SLOT", self.refused("GCZ_BAD_SLOT = 11", "GCZ_BAD_SLOT = 14"))

    def test_missing_call_is_found(self):
        call = "GCZ_CALL uint32_t gcz_drop(gcz_t *gcz, uint32_t reg);\n"
        self.assertIn("call gcz_drop: missing in the header", self.refused(call, ""))

    def test_the_package_has_the_version(self):
        for name in ("Cargo.toml", "Cargo.lock"):
            text = (BINDINGS / "rust" / name).read_text(encoding="utf-8")
            self.assertIn(f'\nname = "gczone"\nversion = "{version()}"\n', text)


class RangesTest(unittest.TestCase):
    """tests/ranges.c tries each number of each call out of its range, and each call at a closed handle."""

    # By the names of parameters: which are numbers of any size, and which have a range.
    ANY = {"zones", "limit", "index", "status", "size", "root"}
    RANGED = {"reg", "from", "map", "key", "value", "slot", "zone", "comp", "field", "fields"}

    def setUp(self):
        header = re.sub(r"/\*.*?\*/", "", (BINDINGS / "c/gczone.h").read_text(encoding="utf-8"), flags=re.DOTALL)
        self.calls = {
            name: [word.split()[-1] for word in words.split(", ")[1:] if "*" not in word]
            for name, words in re.findall(r"GCZ_CALL uint32_t (gcz_\w+)\((gcz_t \*gcz[^)]*)\);", header)
        }
        self.ranges = (BINDINGS / "c/tests/ranges.c").read_text(encoding="utf-8")

    def test_each_number_is_tried(self):
        tried = {
            (name, place)
            for name, words in re.findall(r"(gcz_\w+)\(g, ([^()]*)\)", self.ranges)
            for place, word in enumerate(words.split(", "))
            if word in ("bad", "BEYOND[i]")
        }
        wanted = {
            (name, place)
            for name, numbers in self.calls.items() for place, number in enumerate(numbers) if number not in self.ANY
        }
        self.assertEqual({number for numbers in self.calls.values() for number in numbers} - self.ANY, self.RANGED)
        self.assertEqual(tried, wanted)

    def test_each_call_is_tried_at_a_closed_handle(self):
        closed = re.search(r"static void all_closed\(.*?\n}", self.ranges, re.DOTALL)[0]
        tried = set(re.findall(r"\b(gcz_\w+)\(g\b[^()]*\), GCZ_CLOSED\)", closed))
        self.assertIn("next_grays(g, GCZ_CLOSED);", closed)
        self.assertEqual(tried, self.calls.keys() - {"gcz_open", "gcz_next_gray"})


class LibraryTest(unittest.TestCase):
    """Has a folder with the library, and with the C programs."""

    @classmethod
    def setUpClass(cls):
        for command in ("make", "cc", "ar"):
            if not shutil.which(command):
                raise unittest.SkipTest(f"there is no {command}")
        try:
            archive = find_program("gczone_c")
        except Missing as missing:
            raise unittest.SkipTest(str(missing)) from None
        folder = tempfile.TemporaryDirectory()
        cls.addClassCleanup(folder.cleanup)
        cls.out = Path(folder.name)
        cls.environment = {**os.environ, "GCZONE_LIB_DIR": str(cls.out)}
        made = run("make", "-C", BINDINGS / "c", f"OUT={cls.out}", f"ARCHIVE={archive}", "all", "examples", "tests")
        if made.returncode:
            raise AssertionError(made.stdout)

    def need(self, command):
        if not shutil.which(command):
            self.skipTest(f"there is no {command}")

    def assert_prints(self, text, *words, **options):
        done = run(*words, **options)
        self.assertEqual(done.returncode, 0, done.stdout)
        if isinstance(text, str):
            self.assertEqual(done.stdout, text)
        else:
            self.assertRegex(done.stdout, re.compile(text.pattern + r"\Z"))


class ProgramTest(LibraryTest):
    def test_numbers_out_of_range(self):
        self.assert_prints("ok\n", self.out / "ranges")

    def test_each_allocation_fails(self):
        self.assert_prints("ok\n", self.out / "faults")

    def test_list_machine(self):
        self.assert_prints(LISTS, self.out / "lists")

    def test_memory_under_valgrind(self):
        self.need("valgrind")
        for program, text in (("ranges", "ok\n"), ("faults", "ok\n"), ("lists", LISTS)):
            with self.subTest(program):
                self.assert_prints(text, *VALGRIND, self.out / program)

    def test_header_is_of_c_plus_plus_too(self):
        self.need("c++")
        body = "gcz_t heap = GCZ_CLOSED_HANDLE; gcz_close(&heap); return gcz_interface() != GCZ_INTERFACE;"
        (self.out / "closed.cpp").write_text(f'#include "gczone.h"\nint main() {{ {body} }}\n', encoding="utf-8")
        words = ("c++", "-std=c++17", "-Wall", "-Wextra", "-Werror", f"-I{BINDINGS / 'c'}", "-o", self.out / "closed")
        self.assert_prints("", *words, self.out / "closed.cpp", self.out / "libgczone.a")
        self.assert_prints("", self.out / "closed")

    def install(self, *words):
        built = ("-o", self.out / "libgczone.a", "-o", self.out / "libgczone.so")
        made = run("make", "-C", BINDINGS / "c", f"OUT={self.out}", "ARCHIVE=", "HEAP=", *built, *words, "install")
        self.assertEqual(made.returncode, 0, made.stdout)

    def test_first_program_of_the_document(self):
        page = (TOP / "docs/EMBEDDING.md").read_text(encoding="utf-8")
        text = re.search(r"^    #include <gczone.h>\n(?:(?:    .*)?\n)*", page, re.MULTILINE)[0]
        (self.out / "first.c").write_text(textwrap.dedent(text), encoding="utf-8")
        words = ("-std=c11", "-Wall", "-Wextra", "-Werror", f"-I{BINDINGS / 'c'}", "-o", self.out / "first")
        self.assert_prints("", "cc", *words, self.out / "first.c", self.out / "libgczone.a")
        self.assert_prints("cell 2 is freed\n", self.out / "first")

    def test_install(self):
        root = self.out / "root"
        self.install(f"DESTDIR={root}")
        lines = (root / "usr/local/lib/pkgconfig/gczone.pc").read_text(encoding="utf-8").splitlines()
        self.assertIn("prefix=/usr/local", lines)
        self.assertIn(f"Version: {version()}", lines)
        self.assertTrue((root / "usr/local/lib/libgczone.so").resolve().is_file())

    def test_what_is_installed_is_found(self):
        self.need("pkg-config")
        prefix = self.out / "prefix"
        self.install(f"PREFIX={prefix}")
        environment = {"PKG_CONFIG_PATH": str(prefix / "lib/pkgconfig"), "LD_LIBRARY_PATH": str(prefix / "lib")}
        words = run("pkg-config", "--cflags", "--libs", "gczone", env={**os.environ, **environment}).stdout.split()
        made = run("cc", "-o", self.out / "installed", BINDINGS / "c/examples/lists.c", *words)
        self.assertEqual(made.returncode, 0, made.stdout)
        self.assert_prints(LISTS, self.out / "installed", env={**os.environ, **environment})

    def test_names_of_the_library_are_its_calls(self):
        self.need("nm")
        header = (BINDINGS / "c/gczone.h").read_text(encoding="utf-8")
        calls = sorted(re.findall(r"^(?:\w+ )*(gcz_\w+)\(", header, re.MULTILINE))
        for words in (["-g", self.out / "libgczone.a"], ["-D", self.out / "libgczone.so"]):
            names = re.findall(r"^[0-9a-f]+ [A-Z] (\w+)", run("nm", *words).stdout, re.MULTILINE)
            self.assertEqual(sorted(names), calls)

    def test_threads_of_python(self):
        program = """
            import threading, gczone
            heap = gczone.Heap()
            compartment = heap.compartment(heap.zone())
            def work(register):
                for _ in range(3000):
                    heap.object(register, compartment, 1)
            threads = [threading.Thread(target=work, args=[register]) for register in range(4)]
            for each in threads: each.start()
            for each in threads: each.join()
            print(heap.counts().objects)
        """
        environment = {**self.environment, "PYTHONPATH": str(BINDINGS / "python")}
        self.assert_prints("12000\n", sys.executable, "-B", "-c", textwrap.dedent(program), env=environment)

    def test_pinned_roots_of_python(self):
        program = """
            import gczone
            heap = gczone.Heap()
            zone = heap.zone()
            made = heap.object(0, heap.compartment(zone), 1)
            root = heap.pin(0)
            heap.set(0, 0, 0)
            heap.drop(0)
            events = list(heap.collect([zone]))
            heap.load(0, root)
            print(heap.get(1, 0, 0) == made, heap.units_left(), heap.begin([zone]), heap.units_left() > 0)
            heap.unpin(root)
            for number in (root, root + 1, -1, 2**64 - 1, 2**64):
                try:
                    heap.load(0, number)
                except gczone.Fault as fault:
                    print(fault.status == gczone.NOT_PINNED, fault)
        """
        environment = {**self.environment, "PYTHONPATH": str(BINDINGS / "python")}
        wanted = "True 0 None True\n" + 5 * "True no cell is pinned under this number\n"
        self.assert_prints(wanted, sys.executable, "-B", "-c", textwrap.dedent(program), env=environment)

    def test_cycle_collector(self):
        words = (sys.executable, "-B", BINDINGS / "python/examples/cycles.py")
        self.assert_prints(CYCLES, *words, env=self.environment)


class Trace:
    """Random commands, two zones in five compartments, with collections in slices and piles of cells between them.

    Commands go by the registers r0 to r6. Those from r8 on are written and read by copy and drop alone, so that they
    can be pinned roots.
    """

    ROWS = (
        ["new r c n"] * 5 + ["map r c"] * 2 + ["get r r f"] * 4 + ["set r f r"] * 5 + ["wrap r r c"] * 2
        + ["put r r r"] * 2 + ["set r f -", "unwrap r r", "copy r r", "drop r", "hold g r", "release g", "expose r g"]
        + ["del r r"]
        + ["weaken q r", "deref r q", "watch r", "watch r", "unwatch r", "compact o"]
        + ["copy p r", "copy p r", "copy r p", "drop p"]
        + ["find r r r", "slice s", "slice s", "slice s", "gc z", "collect z", "finish", "reset", "colours", "dump"]
        + ["comp 2"]
    )

    def __init__(self, seed):
        self.random = random.Random(seed)

    def word(self, kind):
        below = {"r": 16, "g": 64, "q": 64, "o": 3, "c": 6, "n": 9, "f": 8, "s": 40}
        if kind in ("-", "2"):
            return kind
        if kind == "z":
            return " ".join(map(str, sorted(self.random.sample(range(3), self.random.randint(1, 2)))))
        if kind == "p":
            return f"r{self.random.randrange(8, 16)}"
        number = self.random.randrange(below[kind])
        return f"{kind}{min(number, number % 7) if kind == 'r' else number % 5}" if kind in "rgq" else str(number)

    def row(self):
        word, *kinds = self.random.choice(self.ROWS).split()
        return " ".join([word, *map(self.word, kinds)])

    def pile(self):
        """The lines of a list whose cells lie among garbage, which a collection frees: then some have to move."""
        compartment = self.random.randrange(5)
        yield from ("finish", "drop r6")
        for number in range(self.random.randint(70, 150)):
            yield f"new r5 {compartment} 2"
            if number % 3 == 0:
                yield from ("set r5 0 r6", "copy r6 r5")
        yield from (f"watch r{self.random.choice('56')}", "weaken q0 r6", "copy r15 r6", "drop r6")
        yield from (f"collect {compartment % 2}", f"compact {compartment % 2}", "copy r6 r15", "deref r5 q0", "dump")

    def text(self, lines):
        body = ["zone", "zone", *(f"comp {number % 2}" for number in range(5))]
        while len(body) < lines:
            body += self.pile()
            body += (self.row() for _ in range(PILE_EACH))
        return "\n".join([*body, "finish", "collect 0 1", "dump", ""])


class ReplyTest(LibraryTest):
    """The library answers a trace as the program does, whoever calls it."""

    def setUp(self):
        self.program = find_program()

    def replays(self):
        """The commands that answer a trace by calls of the library."""
        return {
            "C": [self.out / "replay"],
            "Python": [sys.executable, "-B", BINDINGS / "python/examples/replay.py"],
        }

    def compare(self, text, name, *languages, words=()):
        with tempfile.TemporaryFile("w+") as file:
            file.write(text)

            def answers(*words):
                file.seek(0)
                return run(*words, stdin=file, env=self.environment).stdout

            wanted = answers(self.program, "run")
            for language in languages:
                answered = answers(*self.replays()[language], *words)
                self.assertTrue(answered == wanted, f"{language} answers {name} otherwise")
        return wanted

    def test_examples(self):
        traces = sorted((TOP / "examples").glob("*.trace"))
        self.assertGreater(len(traces), 30)
        for trace in traces:
            if not trace.with_suffix(".status").exists():
                with self.subTest(trace.name):
                    self.compare(trace.read_text(encoding="ascii"), trace.name, *self.replays())

    def test_random_commands(self):
        answers = []
        for seed in range(SEEDS):
            with self.subTest(seed):
                languages = ["C", *["Python"] * (seed < PYTHON_SEEDS)]
                text = Trace(seed).text(COMMANDS)
                answers.append(self.compare(text, f"seed {seed}", *languages, words=["--pin"]))
        text = "".join(answers)
        self.assertEqual([it for it in ANSWERS if not re.search(f"^{it}", text, re.MULTILINE)], [])

    def test_replay_under_valgrind(self):
        self.need("valgrind")
        with tempfile.TemporaryFile("w+") as file:
            file.write(Trace(SEEDS).text(COMMANDS))
            for language, words in self.replays().items():
                if language != "Python":
                    file.seek(0)
                    done = run(*VALGRIND, *words, "--pin", stdin=file)
                    self.assertEqual((done.returncode, done.stdout[-5:]), (0, "\nend\n"), done.stdout[-2000:])


class RustTest(ReplyTest):
    @classmethod
    def setUpClass(cls):
        super().setUpClass()
        if not shutil.which("cargo"):
            raise unittest.SkipTest("there is no cargo")
        cls.environment["CARGO_TARGET_DIR"] = str(cls.out / "target")
        made = run("cargo", "build", "--offline", "--quiet", "--examples", cwd=BINDINGS / "rust", env=cls.environment)
        if made.returncode:
            raise AssertionError(made.stdout)

    def example(self, name):
        return self.out / "target/debug/examples" / name

    def replays(self):
        return {"Rust": [self.example("replay")]}

    def test_package(self):
        done = run("cargo", "test", "--offline", "--quiet", cwd=BINDINGS / "rust", env=self.environment)
        self.assertEqual((done.returncode, len(re.findall("test result: ok", done.stdout)) > 0), (0, True), done.stdout)

    def test_list_machine(self):
        self.assert_prints(run(self.out / "lists").stdout, self.example("lists"))

    def test_memory_under_valgrind(self):
        self.need("valgrind")
        self.assert_prints(LISTS, *VALGRIND, self.example("lists"))

    def test_package_under_valgrind(self):
        self.need("valgrind")
        # What runs the tests loses blocks of threads in part.
        definite = ("--show-leak-kinds=definite", "--errors-for-leak-kinds=definite")
        runner = {"CARGO_TARGET_X86_64_UNKNOWN_LINUX_GNU_RUNNER": " ".join([*VALGRIND, *definite])}
        words = ("cargo", "test", "--offline", "--quiet", "--test", "calls")
        done = run(*words, cwd=BINDINGS / "rust", env={**self.environment, **runner})
        self.assertEqual((done.returncode, "test result: ok" in done.stdout), (0, True), done.stdout)

    def test_random_commands(self):
        for seed in range(SEEDS):
            with self.subTest(seed):
                self.compare(Trace(seed).text(COMMANDS), f"seed {seed}", "Rust", words=["--pin"])


if __name__ == "__main__":
    unittest.main()
