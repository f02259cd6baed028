"""Tests tools/wrong-bodies on a small repository of its own, in which `rt` is not the true one."""

import os
import shutil
import stat
import subprocess
import sys
import tempfile
import unittest
from pathlib import Path

TOP = Path(__file__).resolve().parent.parent.parent
TOOLS = ("command_line.py", "crate_list.py", "program.py", "progress.py", "wrong-bodies")
EDIT = "file: src/lib.rt\nold: number + number\nnew: number\n"
FILES = {
    "crates.txt": "low:\nhigh: low\n",
    "HANDLES": "Handles allowed: none.\n",
    "crates/low/src/lib.rt": "pub fn double(number: u8) -> u8 {\n    number + number\n}\n",
    "crates/low/must-fail/zero.edit": EDIT,
    "crates/low/out/rlib": "",
    "crates/high/src/lib.rt": "// Nothing.\n",
    "examples/wrong_bodies/low/half.edit": EDIT,
    "examples/wrong_bodies/low/same.edit": EDIT,
    "examples/wrong_bodies/high/none.edit": EDIT,
}
# What `rt ci` says of an edit, as it is written there.
SAYS = {
    "refused": "refused, as it must be: src/lib.rt:2:5: error: `returns-clause-sum` is open",
    "by_name": "refused, as it must be (only because a proof file names what the edit took away): proofs/A.antt:3",
    "passes": "NOT REFUSED: the crate is still proved with this edit",
    "bad": "BAD EDIT: an 'old:' text is in src/lib.rt 0 times, and not once",
    "late": "NOT TRIED: its check was killed, most likely for memory, so nothing is known of it: run this again",
}
FAKE_RT = """#!/bin/sh
# Says of each edit what the file `says` has for it.
echo "$@" > {top}/words
find . -type f | sort > {top}/files
echo "rt: low: trying its must-fail edits"
for edit in crates/*/must-fail/*.edit; do
    crate=$(basename "$(dirname "$(dirname "$edit")")")
    sed -n "s:^$(basename "$edit" .edit) :rt\\: must-fail $crate/$(basename "$edit")\\: :p" {top}/says
done
echo "1 passed, 0 failed"
"""


class WrongBodies(unittest.TestCase):
    def setUp(self):
        holder = tempfile.TemporaryDirectory()
        self.addCleanup(holder.cleanup)
        self.top = Path(holder.name)
        for name, text in FILES.items():
            self.write(name, text)
        for name in TOOLS:
            self.write(f"tools/{name}", "")
            shutil.copy(TOP / "tools" / name, self.top / "tools" / name)
        self.write("bin/rt", FAKE_RT.format(top=self.top))
        (self.top / "bin/rt").chmod(stat.S_IRWXU)
        self.say(half="refused", same="refused", none="refused")

    def write(self, name, text):
        path = self.top / name
        path.parent.mkdir(parents=True, exist_ok=True)
        path.write_text(text)

    def say(self, **said):
        self.write("says", "".join(f"{name} {SAYS[kind]}\n" for name, kind in said.items()))

    def run_tool(self, *words, path=None):
        path = f"{self.top}/bin:{os.environ['PATH']}" if path is None else path
        ran = subprocess.run(
            [sys.executable, self.top / "tools/wrong-bodies", *words], capture_output=True, text=True, check=False,
            env={**os.environ, "PATH": path},
        )
        return ran.returncode, ran.stdout.splitlines(), ran.stderr

    def test_all_are_refused(self):
        status, lines, error = self.run_tool()
        self.assertEqual((status, error), (0, ""))
        says = "src/lib.rt:2:5: error: `returns-clause-sum` is open"
        names = ("high/none", "low/half", "low/same")
        self.assertEqual(lines, [*(f"{name}: refused: {says}" for name in names), "3 refused, 0 let through, of 3"])
        self.assertEqual((self.top / "words").read_text(), "ci high low\n")

    def test_only_these_edits_are_copied(self):
        self.run_tool("low/half")
        self.assertEqual((self.top / "words").read_text(), "ci low\n")
        wanted = ["HANDLES", "crates.txt", "crates/high/src/lib.rt", "crates/low/must-fail/half.edit"]
        wanted = sorted(f"./{name}" for name in [*wanted, "crates/low/src/lib.rt"])
        self.assertEqual(sorted((self.top / "files").read_text().splitlines()), wanted)

    def test_what_is_not_refused(self):
        self.say(half="passes", same="by_name", none="bad")
        status, lines, _ = self.run_tool()
        self.assertEqual((status, lines[-1]), (1, "1 refused, 1 let through, of 3"))
        kinds = [line.split(": ")[1].split(" (")[0] for line in lines[:3]]
        self.assertEqual(kinds, ["NOT TRIED", "LET THROUGH", "refused"])
        self.assertIn("only because a proof file names", lines[2])
        self.say(half="late")
        status, lines, _ = self.run_tool("low")
        self.assertEqual(status, 1)
        self.assertEqual(lines[1:], ["low/same: NOT TRIED: rt ci says nothing of it", "0 refused, 0 let through, of 2"])
        self.assertTrue(lines[0].startswith("low/half: NOT TRIED: its check was killed"))

    def test_nothing_is_said(self):
        self.say()
        status, lines, error = self.run_tool("high")
        self.assertEqual((status, lines[-1]), (1, "0 refused, 0 let through, of 1"))
        self.assertIn("1 passed, 0 failed", error)

    def test_words(self):
        self.assertEqual(self.run_tool("--list", "low")[:2], (0, ["low/half", "low/same"]))
        self.assertEqual(self.run_tool("--list")[1], ["high/none", "low/half", "low/same"])
        for word in ("lower", "low/none", "half"):
            status, _, error = self.run_tool(word)
            self.assertEqual(status, 2)
            self.assertTrue(error.startswith(f"wrong-bodies: {word} is no crate in examples/wrong_bodies"), error)
        self.assertFalse((self.top / "words").exists())

    def test_without_edits(self):
        shutil.rmtree(self.top / "examples")
        status, lines, error = self.run_tool()
        self.assertEqual((status, lines), (1, []))
        self.assertTrue(error.startswith("wrong-bodies: there is no edit in "), error)
        self.assertFalse((self.top / "words").exists())

    def test_without_rt(self):
        status, lines, error = self.run_tool(path="/nowhere")
        self.assertEqual((status, lines), (1, []))
        self.assertTrue(error.startswith("wrong-bodies: rt is not found"), error)


if __name__ == "__main__":
    unittest.main()
