"""Tests of tools/page and tools/world.py: the colours beside those of the program, and the page in Chromium, headless.

What runs in the browser is left out where there is none (Debian's package is `chromium`).
"""

import base64
import collections
import contextlib
import fcntl
import io
import itertools
import json
import os
import random
import re
import select
import shutil
import struct
import subprocess
import sys
import tempfile
import time
import unittest
import zlib
from pathlib import Path
from unittest import mock

TOP = Path(__file__).resolve().parent.parent.parent
TOOLS = TOP / "tools"
EXAMPLES = TOP / "examples"
PAGES = TOP / "docs/pages"
sys.dont_write_bytecode = True
sys.path.insert(0, str(TOOLS))
from program import find_program  # noqa: E402 (the folder of tools is no package)
from trace_model import answers, ask, fault_of, replay, split_lines  # noqa: E402
from world import Recorder, load_script, record  # noqa: E402

PAGE = load_script("page")
CHROMIUM = shutil.which("chromium")
SECONDS = 300
KEYS = {
    "ArrowRight": 39, "ArrowLeft": 37, "Home": 36, "End": 35, "PageDown": 34, "PageUp": 33, "Enter": 13, "Escape": 27,
    "Tab": 9,
}
# How many cells are shown in each state, whether their zone is folded or not.
COUNTS = """JSON.stringify([...document.querySelectorAll("#heap [data-cell]")].reduce((counts, part) => {
  const state = /s-(.)/.exec(part.getAttribute("class"))[1];
  counts[state] = (counts[state] ?? 0) + 1;
  return counts;
}, {}))"""


def read_lines(name):
    return (EXAMPLES / f"{name}.trace").read_text().splitlines()


def answered_traces():
    """The lines of each example whose every line has an answer."""
    for file in sorted(EXAMPLES.rglob("*.trace")):
        raw = split_lines(file.read_bytes())
        if not any(map(fault_of, raw)):
            yield file, [line.decode() for line in raw]


def random_lines(seed, count):
    """A trace with a collection in slices, drawn from a seed; many of its lines are refused."""
    draw = random.Random(seed)
    lines = ["zone", "zone", "zone"] + [f"comp {n % 3}" for n in range(5)] + [f"new r{n} {n} 2" for n in range(5)]
    rows = (
        "new r r c 2", "new r c 2", "map r c", "get r r f", "set r f r", "set r f r", "set r f -", "wrap r r c",
        "wrap r r c", "unwrap r r", "copy r r", "drop r", "drop r", "hold g r", "hold g r", "release g", "expose r g",
        "put r r r", "put r r r", "find r r r", "del r r", "gc Z", "slice u", "slice u", "slice u", "finish",
        "collect Z", "reset",
    )
    most = {"r": 5, "g": 4, "c": 5, "f": 2, "u": 12}

    def word(kind):
        if kind == "Z":
            return " ".join(str(zone) for zone in range(3) if draw.random() < 0.6) or "1"
        number = draw.randrange(most[kind]) if kind in most else None
        return kind if number is None else f"{kind if kind in 'rg' else ''}{number}"

    while len(lines) < count:
        head, *kinds = draw.choice(rows).split(" ")
        line = " ".join([head, *map(word, kinds)])
        if not fault_of(line.encode()):
            lines.append(line)
    return lines


def heap_of(cells):
    """A trace of four zones with many cells in lists, half of them held by gray slots, and a collection in slices."""
    lines = ["zone"] * 4 + [f"comp {zone}" for zone in range(4)]
    for zone in range(4):
        lines.append(f"new r0 {zone} 1")
        for _ in range(cells // 4 - 1):
            lines += [f"new r1 {zone} 1", "set r1 0 r0", "copy r0 r1"]
        lines.append(f"copy r{zone + 4} r0" if zone % 2 else f"hold g{zone} r0")
    return [*lines, "drop r0", "drop r1", "gc 0 1 2 3", "slice 40", "expose r2 g0", "finish"]


def run_page(*words, data=b"", **variables):
    words = [TOOLS / "page", *map(str, words)]
    given = {"input": data, "env": {**os.environ, **variables}}
    return subprocess.run(words, capture_output=True, timeout=SECONDS, check=False, **given)


def pictures_of(recorder):
    """How many cells are in each state after each step."""
    shown, pictures = {}, [{}]
    for step in recorder.steps:
        shown.update((key, value) for key, value in step.changes if re.fullmatch(r"s\d+", key))
        pictures.append(dict(collections.Counter(value for value in shown.values() if value)))
    return pictures


class WorldTest(unittest.TestCase):
    """The colours of tools/world.py are those of the program whenever that tells them."""

    def check(self, lines):
        lines = [text for line in lines for text in (line, "colours")]
        recorder = record(lines, ask(lines))
        self.assertEqual([(step.number, step.why) for step in recorder.steps if "the definitions ask" in step.why], [])
        return recorder

    def test_the_colours_of_the_examples(self):
        traces = list(answered_traces())
        self.assertGreater(len(traces), 20)
        for file, lines in traces:
            with self.subTest(file.name):
                self.check(lines)

    def test_the_colours_of_random_traces(self):
        states = set()
        for seed in range(12):
            with self.subTest(seed=seed):
                recorder = self.check(random_lines(seed, 300))
                changes = sum((step.changes for step in recorder.steps), [])
                states |= {value for key, value in changes if re.fullmatch(r"s\d+", key)}
        self.assertEqual(states, {"b", "g", "p", "B", "G", "W", "d", ""})

    def test_the_colours_of_tools_why(self):
        """tools/why follows the definitions by itself, and for a line at a time."""
        why = load_script("why")
        words_of = {"b": "black", "g": "gray", "p": "not marked yet", "B": "black", "G": "gray", "W": "white"}
        for seed in range(20, 24):
            lines = random_lines(seed, 200)
            output = ask([*lines, "finish"])
            recorder, world = Recorder(), why.World()
            told = answers(lines, output)
            later = output[sum(map(len, told)):]
            for number, (words, own, model) in enumerate(replay(lines, output, later), 1):
                world.follow(number, words, own, model)
                recorder.line(number, lines[number - 1], own)
                mine = {name: words_of[recorder.world.status(name)] for name in recorder.world.model.cells}
                self.assertEqual(mine, {name: world.state(name) for name in model.cells}, f"seed {seed}, line {number}")

    def test_what_must_be_black_and_what_may_become_so(self):
        """Cell 2 was moved, and cell 3 taken out of its field, while only cell 0 was scanned; nothing leads to 3."""
        lines = read_lines("three_slices")
        recorder = record(lines, ask(lines))
        shown = {}
        for step in recorder.steps:
            shown.update(step.changes)
            if step.text.startswith("slice 1"):
                break
        self.assertEqual([shown[f"s{cell}"] for cell in range(4)], ["B"] * 4)
        lines = ["zone", "comp 0", "new r0 0 1", "new r1 0 0", "set r0 0 r1", "hold g0 r0", "drop r0", "drop r1"]
        lines += ["new r2 0 0", "new r3 0 0", "drop r3", "gc 0", "slice 2", "new r4 0 0", "expose r5 g0"]
        recorder = record(lines, ask(lines))
        shown = {}
        for step in recorder.steps[:-4]:
            shown.update(step.changes)
        self.assertEqual([shown[f"s{cell}"] for cell in range(4)], ["p"] * 4)
        for step in recorder.steps[-4:-2]:
            shown.update(step.changes)
        self.assertEqual([shown[f"s{cell}"] for cell in range(4)], ["G", "G", "B", "W"])
        shown.update(recorder.steps[-2].changes)
        self.assertEqual((shown["s4"], shown["w4"]), ("B", 1))
        shown.update(recorder.steps[-1].changes)
        self.assertEqual([shown[f"s{cell}"] for cell in range(4)], ["B", "B", "B", "W"])

    def test_output_that_differs_is_marked(self):
        lines = read_lines("gray_cycle")
        output = [line.replace("gray 0 1 0:1 1:0", "gray 0 1 0:1") for line in ask(lines)]
        marked = [step.why for step in record(lines, output).steps if "the definitions ask" in step.why]
        self.assertEqual(len(marked), 2)
        self.assertIn("gray 0 1 0:1 1:0", marked[0])


class PageTest(unittest.TestCase):
    def test_the_pages_of_the_documents(self):
        made = run_page("--documents", "--check")
        self.assertEqual((made.returncode, made.stdout, made.stderr), (0, b"", b""))
        pages = list(PAGES.glob("*.html"))
        self.assertEqual(len(pages), 12)
        self.assertLess(max(page.stat().st_size for page in pages), 10_000)
        lesson = (EXAMPLES / "README.md").read_text().partition("\n## All examples\n")[0]
        linked = re.findall(r"\(\.\./docs/pages/(\w+)\.html\)", lesson)
        self.assertEqual(linked, (PAGES / "list").read_text().split())

    def test_a_page_of_the_documents_that_is_old_or_too_many(self):
        with tempfile.TemporaryDirectory() as folder, mock.patch.object(PAGE, "PAGES", Path(folder)):
            Path(folder, "list").write_text("first\nexpose\n")
            with contextlib.redirect_stdout(io.StringIO()):
                self.assertEqual(PAGE.write_documents(True, find_program()), 1)
                self.assertEqual(PAGE.write_documents(False, find_program()), 0)
                self.assertEqual(PAGE.write_documents(True, find_program()), 0)
            self.assertEqual(Path(folder, "first.html").read_bytes(), (PAGES / "first.html").read_bytes())
            Path(folder, "first.html").write_text("another")
            Path(folder, "rings.html").write_text("one more")
            with contextlib.redirect_stdout(io.StringIO()) as told:
                self.assertEqual(PAGE.write_documents(True, find_program()), 1)
            self.assertIn("docs/pages/list: rings, first; tools/page --documents", told.getvalue())

    def test_it_is_the_same_each_time(self):
        with tempfile.TemporaryDirectory() as folder:
            file = Path(folder) / "trace"
            file.write_text("".join(f"{line}\n" for line in [*random_lines(7, 400), "finish"]))
            pages = {run_page(file, PYTHONHASHSEED=str(seed)).stdout for seed in range(4)}
        self.assertEqual(len(pages), 1)

    def test_it_loads_nothing(self):
        page = run_page(EXAMPLES / "first.trace").stdout.decode()
        self.assertNotRegex(page, r"(?i)https?:|\bsrc\s*=|@import|@font-face|\bfetch\(|XMLHttpRequest|\bimport\(")
        self.assertEqual({name[0] for name in re.findall(r"url\(([^)]*)\)", page)}, {"#"})

    def test_it_grows_with_changes_alone(self):
        """A line that changes nothing adds what it says, however many cells there are."""
        sizes = [len(PAGE.page_of("a", lines, ask(lines))) for lines in (
            heap_of(40), heap_of(40) + ["colours"] * 200, heap_of(400), heap_of(400) + ["colours"] * 200,
        )]
        self.assertLess(abs((sizes[3] - sizes[2]) - (sizes[1] - sizes[0])), 200 * 200)
        self.assertLess(sizes[3] - sizes[2], 200 * 400)

    def test_output_is_text_in_the_page(self):
        lines = ["colours"]
        page = PAGE.page_of("<b>&", lines, ["<script>alert(1)</script>"])
        self.assertIn("<title>&lt;b&gt;&amp;</title>", page)
        self.assertEqual(page.count("<script>"), 2)

    def test_standard_input_and_output_files(self):
        trace = EXAMPLES / "first.trace"
        with tempfile.TemporaryDirectory() as folder:
            file = Path(folder) / "first.trace.html"
            self.assertEqual(run_page(trace, "--output", file).returncode, 0)
            told = run_page("-", data=trace.read_bytes()).stdout.decode()
            self.assertEqual(file.read_text().replace("first.trace", "trace"), told)
            self.assertEqual(run_page(trace, "--output", folder).returncode, 1)

    def test_faults_are_told(self):
        with tempfile.TemporaryDirectory() as folder:
            binary = Path(folder) / "binary"
            binary.write_bytes(bytes(range(256)))
            rows = [
                ([], 2), (["--check"], 2), (["walk", "--documents"], 2), (["walk", "on"], 2), (["--walk"], 2),
                (["/nofile"], 2), ([folder], 2), ([binary], 2),
                (["-"], 2), ([EXAMPLES / "bad_line.trace"], 2),
                *(([EXAMPLES / "first.trace", "--program", name], 1) for name in ("/nofile", "true", "echo", "false")),
            ]
            for words, status in rows:
                with self.subTest(words=words):
                    ran = run_page(*words)
                    self.assertEqual((ran.returncode, ran.stdout), (status, b""))
                    self.assertRegex(ran.stderr.decode().splitlines()[-1], r"^page: ")
                    self.assertNotIn(b"Traceback", ran.stderr)

    def test_help_and_version(self):
        self.assertIn(b"tools/page TRACE > trace.html", run_page("--help").stdout)
        self.assertEqual(len(run_page("--version").stdout.splitlines()), 1)


def pixels_of(png):
    """The width, the height and the rows of an image without transparency, in RGB or RGBA."""
    at, data = 8, b""
    while at < len(png):
        size, kind = struct.unpack(">I4s", png[at:at + 8])
        if kind == b"IHDR":
            width, height, _, colour = struct.unpack(">IIBB", png[at + 8:at + 18])
        if kind == b"IDAT":
            data += png[at + 8:at + 8 + size]
        at += size + 12
    each = {2: 3, 6: 4}[colour]
    data, rows, before = zlib.decompress(data), [], bytearray(width * each)
    for y in range(height):
        start = y * (width * each + 1)
        rows.append(unfiltered(data[start], bytearray(data[start + 1:start + 1 + width * each]), before, each))
        before = rows[-1]
    return width, height, [[tuple(row[x * each:x * each + 3]) for x in range(width)] for row in rows]


def differing(rows, others):
    """How many pixels of two pictures differ by more than how a browser smooths the edges of letters."""
    pairs = zip(itertools.chain(*rows), itertools.chain(*others), strict=True)
    return sum(max(abs(part - other) for part, other in zip(*pair)) > 12 for pair in pairs)


def unfiltered(kind, row, above, each):
    """A row of a PNG, by the filter that it was written with."""
    for at in range(len(row) if kind else 0):
        left = row[at - each] if at >= each else 0
        up = above[at]
        if kind == 4:
            corner = above[at - each] if at >= each else 0
            guess = min((left, up, corner), key=lambda part: abs(left + up - corner - part))
        else:
            guess = (left, up, (left + up) // 2)[kind - 1]
        row[at] = row[at] + guess & 255
    return row


class Browser:
    """Chromium, driven by the protocol of its tools over a pair of pipes."""

    def __init__(self):
        self.profile = tempfile.TemporaryDirectory()
        ends = [fcntl.fcntl(end, fcntl.F_DUPFD, 20) for end in (*os.pipe(), *os.pipe())]
        words = ["--headless", "--disable-gpu", "--remote-debugging-pipe", "--no-first-run"]
        words += [f"--user-data-dir={self.profile.name}", *(["--no-sandbox"] if os.geteuid() == 0 else [])]
        self.process = subprocess.Popen(
            [CHROMIUM, *words, "about:blank"], stdin=subprocess.DEVNULL, stdout=subprocess.DEVNULL,
            stderr=subprocess.DEVNULL, pass_fds=(3, 4), preexec_fn=lambda: (os.dup2(ends[0], 3), os.dup2(ends[3], 4)),
        )
        os.close(ends[0])
        os.close(ends[3])
        self.writing, self.reading = ends[1], ends[2]
        self.held, self.count, self.session, self.events = b"", 0, None, []
        target = self.call("Target.createTarget", url="about:blank")["targetId"]
        self.session = self.call("Target.attachToTarget", targetId=target, flatten=True)["sessionId"]
        for domain in ("Page", "Runtime", "Log"):
            self.call(f"{domain}.enable")

    def message(self):
        """The next message of the browser."""
        until = time.monotonic() + SECONDS
        while b"\0" not in self.held:
            if not select.select([self.reading], [], [], max(0, until - time.monotonic()))[0]:
                raise TimeoutError("the browser does not answer")
            part = os.read(self.reading, 1 << 16)
            if not part:
                raise EOFError("the browser has ended")
            self.held += part
        text, _, self.held = self.held.partition(b"\0")
        return json.loads(text)

    def call(self, method, **parameters):
        self.count += 1
        asked = {"id": self.count, "method": method, "params": parameters}
        if self.session:
            asked["sessionId"] = self.session
        os.write(self.writing, json.dumps(asked).encode() + b"\0")
        while True:
            told = self.message()
            if told.get("id") == self.count:
                if "error" in told:
                    raise RuntimeError(f"{method}: {told['error']}")
                return told["result"]
            self.events.append(told)

    def open(self, file, step=0, dark=False, width=1400, height=900):
        scheme = [{"name": "prefers-color-scheme", "value": "dark" if dark else "light"}]
        self.call("Emulation.setEmulatedMedia", features=scheme)
        self.call("Emulation.setDeviceMetricsOverride", width=width, height=height, deviceScaleFactor=1, mobile=False)
        self.call("Page.navigate", url="about:blank")
        self.events.clear()
        self.call("Page.navigate", url=f"{file.as_uri()}#{step}")
        while not any(event.get("method") == "Page.loadEventFired" for event in self.events):
            self.events.append(self.message())
        while self.value("document.readyState") != "complete" or not self.value("location.href").startswith("file:"):
            time.sleep(0.05)

    def value(self, expression):
        told = self.call("Runtime.evaluate", expression=expression, returnByValue=True)
        if "exceptionDetails" in told:
            raise RuntimeError(f"{expression}: {told['exceptionDetails']}")
        return told["result"].get("value")

    def press(self, key):
        for kind in ("rawKeyDown", "keyUp"):
            self.call("Input.dispatchKeyEvent", type=kind, key=key, code=key, windowsVirtualKeyCode=KEYS[key])

    def click(self, selector):
        x, y = self.middle(selector)
        for kind in ("mousePressed", "mouseReleased"):
            self.call("Input.dispatchMouseEvent", type=kind, x=x, y=y, button="left", clickCount=1)

    def middle(self, selector):
        """Where the middle of an element stands in the window."""
        box = f"document.querySelector({json.dumps(selector)}).getBoundingClientRect()"
        middle = "(box => JSON.stringify([box.x + box.width / 2, box.y + box.height / 2]))"
        return json.loads(self.value(f"{middle}({box})"))

    def picture(self, width, height):
        """The upper left part of the page."""
        clip = {"x": 0, "y": 0, "width": width, "height": height, "scale": 1}
        return pixels_of(base64.b64decode(self.call("Page.captureScreenshot", format="png", clip=clip)["data"]))

    def picture_of(self, selector):
        """The rows of pixels of the upper left part of an element."""
        box = f"document.querySelector({json.dumps(selector)}).getBoundingClientRect()"
        x, y, width, height = json.loads(self.value(f"(b => JSON.stringify([b.x, b.y, b.width, b.height]))({box})"))
        clip = {"x": x, "y": y, "width": min(width, 400), "height": min(height, 200), "scale": 1}
        return pixels_of(base64.b64decode(self.call("Page.captureScreenshot", format="png", clip=clip)["data"]))[2]

    def faults(self):
        """What the page wrote as an error."""
        found = []
        for event in self.events:
            told = event.get("params", {})
            if event.get("method") == "Runtime.exceptionThrown":
                found.append(told["exceptionDetails"])
            if event.get("method") == "Runtime.consoleAPICalled" and told["type"] in ("error", "warning", "assert"):
                found.append(told["args"])
            if event.get("method") == "Log.entryAdded" and told["entry"]["level"] in ("error", "warning"):
                found.append(told["entry"])
        return found

    def close(self):
        os.close(self.writing)
        try:
            self.process.wait(30)
        except subprocess.TimeoutExpired:
            self.process.kill()
            self.process.wait()
        os.close(self.reading)
        self.profile.cleanup()


@unittest.skipUnless(CHROMIUM, "chromium is not found (apt-get install chromium)")
class BrowserTest(unittest.TestCase):
    @classmethod
    def setUpClass(cls):
        cls.folder = tempfile.TemporaryDirectory()
        cls.browser = Browser()

    @classmethod
    def tearDownClass(cls):
        cls.browser.close()
        cls.folder.cleanup()

    def open(self, lines, **how):
        """Opens the page of a trace, and returns how many cells are in each state after each step."""
        output = ask(lines)
        file = Path(self.folder.name) / "trace.html"
        file.write_text(PAGE.page_of("trace", lines, output))
        self.browser.open(file, **how)
        self.addCleanup(lambda: self.assertEqual(self.browser.faults(), []))
        return pictures_of(record(lines, output))

    def text(self, part):
        return self.browser.value(f'document.getElementById("{part}").innerText')

    def place(self):
        return int(self.browser.value('document.getElementById("slider").value'))

    def counts(self):
        return json.loads(self.browser.value(COUNTS))

    def test_keys_go_through_the_trace(self):
        lines = read_lines("ends_before_another")
        pictures = self.open(lines)
        self.assertEqual(self.place(), 0)
        self.assertIn("The heap is empty", self.text("heap"))
        for step in range(1, len(pictures)):
            self.browser.press("ArrowRight")
            self.assertEqual((self.place(), self.counts()), (step, pictures[step]))
        self.browser.press("ArrowRight")
        self.assertEqual(self.place(), len(pictures) - 1)
        for step in reversed(range(len(pictures) - 1)):
            self.browser.press("ArrowLeft")
            self.assertEqual((self.place(), self.counts()), (step, pictures[step]))
        self.browser.press("End")
        self.assertEqual((self.place(), self.counts()), (len(pictures) - 1, pictures[-1]))
        self.assertIn(f"line {len(lines)} of {len(lines)}", self.text("place"))
        self.browser.press("PageUp")
        self.assertIn("line 10 of 20", self.text("place"))
        self.browser.press("PageUp")
        self.assertEqual(self.place(), 0)
        self.browser.press("PageDown")
        self.assertIn("line 10 of 20", self.text("place"))
        self.browser.press("Home")
        self.assertEqual(self.place(), 0)

    def test_the_pages_of_the_documents(self):
        """They load what all pages have in common from tools/."""
        for page in sorted(PAGES.glob("*.html")):
            with self.subTest(page.stem):
                lines = read_lines(page.stem)
                pictures = pictures_of(record(lines, ask(lines)))
                self.browser.open(page)
                self.browser.press("End")
                self.assertEqual((self.place(), self.counts()), (len(pictures) - 1, pictures[-1]))
                self.browser.press("ArrowLeft")
                self.assertEqual((self.place(), self.counts()), (len(pictures) - 2, pictures[-2]))
                self.assertEqual(self.browser.value("getComputedStyle(document.body).paddingLeft"), "16px")
                self.assertEqual(self.browser.faults(), [])

    def test_each_example_both_ways(self):
        for file, lines in answered_traces():
            with self.subTest(file.name):
                pictures = self.open(lines)
                places = range(0, len(pictures), 1 + len(pictures) // 60)
                ways = [*places, *reversed(places)]
                got = self.browser.value(f"JSON.stringify({ways}.map(step => {{ goTo(step); return {COUNTS} }}))")
                self.assertEqual([json.loads(text) for text in json.loads(got)], [pictures[step] for step in ways])
                self.assertEqual(self.browser.faults(), [])

    def test_the_slider_and_the_lines(self):
        pictures = self.open(read_lines("gray_cycle"))
        self.browser.value('slider.value = 7; slider.dispatchEvent(new Event("input"))')
        self.assertEqual((self.place(), self.counts()), (7, pictures[7]))
        self.browser.click('#lines > li[data-line="5"]')
        self.assertIn("line 5 of 20", self.text("place"))
        self.browser.click("#on")
        self.assertIn("line 6 of 20", self.text("place"))

    def test_a_reply_and_its_reason(self):
        self.open(read_lines("first"), step=8)
        self.assertIn("Its marking began at line 8", self.text("collection"))
        self.browser.press("ArrowRight")
        self.assertIn("zones end in this order", self.text("step"))
        self.browser.press("ArrowRight")
        self.assertIn("none is gray", self.text("step"))
        self.assertIn("2: not reached → dead", self.text("step"))
        self.browser.press("ArrowRight")
        self.assertIn("swept 0 2", self.text("step"))
        self.assertIn("no root reached 2", self.text("step"))
        self.assertIn("2: dead → its slot is free", self.text("step"))

    def test_a_zone_that_is_prepared(self):
        self.open(read_lines("prepared"), step=16)
        self.assertIn("being prepared", self.text("heap"))
        self.assertIn("Its zones are being prepared", self.text("collection"))
        self.browser.value("findCell('1')")
        self.assertIn("not marked yet", self.text("cell"))
        self.assertIn("being prepared", self.text("times"))

    def test_a_collection_that_is_given_up(self):
        lines = read_lines("reset")
        self.open(lines)
        self.browser.press("End")
        self.assertIn("No collection runs", self.text("collection"))
        self.browser.value("goTo(lastStep.get(16))")
        self.assertIn("No collection runs", self.text("collection"))

    def test_a_key_lives_by_its_delegate(self):
        self.open(read_lines("delegate"))
        self.browser.value("goTo(lastStep.get(20)); findCell('0:1')")
        self.assertIn("from a gray slot: g0 → 1 → 0:1 (behind its key in map 0)", self.text("cell"))

    def test_a_cell_and_its_way_from_a_root(self):
        self.open(read_lines("ends_before_another"), step=13)
        self.browser.click('[data-cell="1"]')
        self.assertIn("object 1", self.text("cell"))
        self.assertIn("shortest way from a gray slot: g0 → 0 → 0:1 (its field) → 1 (its target)", self.text("cell"))
        self.assertIn("wrapper 0:1", self.text("cell"))
        self.assertEqual(self.browser.value('document.querySelectorAll("#heap .edge.path").length'), 2)
        self.browser.value("goTo(20)")
        self.assertIn("shortest way from a register: r0 → 0", self.text("cell"))
        self.browser.press("Escape")
        self.assertIn("Click on a cell", self.text("cell"))

    def test_a_way_in_the_snapshot(self):
        lines = read_lines("three_slices")
        self.open(lines)
        step = next(number for number, line in enumerate(lines, 1) if line == "set r1 1 -")
        self.browser.value(f"goTo(lastStep.get({step})); findCell('3')")
        self.assertIn("No root leads to it now. In the snapshot there is a way: r0 → 0", self.text("cell"))
        self.assertEqual(self.browser.value('document.querySelectorAll("#heap .edge.gone").length'), 1)

    def test_an_entry_keeps_its_value(self):
        self.open(read_lines("ephemeron"), step=6)
        self.browser.value("goTo(lastStep.get(7)); findCell('2')")
        self.assertRegex(self.text("cell"), "2 \\((its entry with key 1|as key in map 0)\\)")
        self.assertIn("map 0 as the value of key 1", self.text("cell"))

    def test_cells_and_zones_by_the_keyboard(self):
        self.open(read_lines("gray_cycle"), step=14)
        self.browser.value("""document.querySelector('[data-cell="1"]').focus()""")
        self.browser.press("Enter")
        self.assertIn("object 1", self.text("cell"))
        self.assertEqual(self.browser.value("document.activeElement.dataset.cell"), "1")
        self.browser.value("""document.querySelector('[data-zone="0"]').focus()""")
        self.browser.press("Enter")
        self.assertEqual(self.browser.value("""document.querySelector('[data-zone="0"]').ariaExpanded"""), "false")
        self.assertEqual(self.browser.value('document.querySelectorAll("#heap .slot").length'), 2)
        self.browser.press("Tab")
        self.assertNotEqual(self.browser.value("document.activeElement.dataset.zone"), "0")

    def test_two_hundred_cells(self):
        """All are drawn, none in a folded zone, and each can be read: its text is within it."""
        lines = heap_of(200)
        pictures = self.open(lines, step=len(lines) - 2)
        self.assertEqual(self.browser.value('document.querySelectorAll("#heap g.cell").length'), 200)
        for key in ("ArrowRight", "ArrowLeft", "End", "PageUp", "Home", "PageDown"):
            self.browser.press(key)
            self.assertEqual(self.counts(), pictures[self.place()])
        self.browser.press("End")
        wide = """[...document.querySelectorAll("#heap g.cell")].filter(part =>
          part.querySelector("text").getBoundingClientRect().width >
          part.querySelector(".body").getBoundingClientRect().width).length"""
        self.assertEqual(self.browser.value(wide), 0)
        sizes = """Math.min(...[...document.querySelectorAll("#heap g.cell text")].map(
          text => parseFloat(getComputedStyle(text).fontSize)))"""
        self.assertGreaterEqual(self.browser.value(sizes), 9)

    def test_two_thousand_cells(self):
        lines = heap_of(2000)
        pictures = self.open(lines, step=len(lines) - 2)
        self.assertEqual(sum(self.counts().values()), 2000)
        self.assertEqual(self.browser.value('document.querySelectorAll("#heap .slot").length'), 2000)
        self.assertEqual(self.counts(), pictures[len(lines) - 2])
        for key in ("ArrowRight", "End", "PageUp", "ArrowLeft", "Home", "End"):
            self.browser.press(key)
            self.assertEqual(self.counts(), pictures[self.place()])
        self.browser.click("#unfold")
        self.assertEqual(self.browser.value('document.querySelectorAll("#heap g.cell").length'), 2000)
        self.browser.value("findCell('0')")
        self.assertIn("object 0", self.text("cell"))
        self.assertIn("shortest way from a register: r2 → 499", self.text("cell"))

    def test_the_picture_is_the_same_whichever_way_one_comes(self):
        for lines in (read_lines("three_slices"), heap_of(200)):
            pictures = self.open(lines)
            self.browser.press("End")
            self.browser.press("ArrowLeft")
            self.browser.press("ArrowLeft")
            before = self.browser.picture_of("#heap")
            self.browser.press("ArrowRight")
            self.browser.press("ArrowRight")
            self.assertTrue(differing(self.browser.picture_of("#heap"), before))
            self.browser.press("Home")
            self.browser.value(f"goTo({len(pictures) - 3})")
            self.assertFalse(differing(self.browser.picture_of("#heap"), before))

    def test_the_picture(self):
        """A black cell is dark, a gray one is between, in a light and in a dark page."""
        for dark in (False, True):
            self.open(read_lines("ephemeron"), step=24, dark=dark)
            width, height, rows = self.browser.picture(800, 400)
            self.assertEqual((width, height), (800, 400))
            ground = sum(rows[3][3])
            self.assertTrue(ground < 150 if dark else ground > 700, ground)
            self.assertGreater(len({pixel for row in rows[::3] for pixel in row[::3]}), 20)
            black, gray = (self.mean(rows, cell) for cell in (0, 1))
            self.assertLess(black, 60)
            self.assertTrue(140 < gray < 240, gray)

    def mean(self, rows, cell):
        """The mean brightness of the left part of a cell, where no text stands."""
        x, y = self.browser.middle(f'[data-cell="{cell}"] .body')
        part = [sum(rows[int(y) + down][int(x) - 18 + right]) / 3 for down in range(-4, 5) for right in range(8)]
        return sum(part) / len(part)


if __name__ == "__main__":
    find_program()
    unittest.main()
