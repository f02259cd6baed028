"""Tests tools/uses, tools/after-edit and tools/lint on a small repository of their own."""

import os
import shutil
import subprocess
import sys
import tempfile
import unittest
from pathlib import Path

TOOLS = Path(__file__).resolve().parent.parent
COPIED = (
    "command_line.py", "crate_list.py", "program.py", "progress.py", "repository.py", "uses", "after-edit", "lint",
)
CRATES = "low:\nhigh: low\nother:\n"
SUMS = """-- Sums.
use Rattle.std.specs.Prelude.{◌≡◌, ℕ}

-- twice a number
pub twice : ℕ → ℕ
twice n = n + n

pub ◌⊕◌ : ℕ → ℕ → ℕ
a ⊕ b = a + twice b

abbrev pub thrice : ℕ → ℕ
thrice n = n + twice n
"""
LAWS = """-- Laws of sums.
use Rattle.low.specs.Sums.{twice, thrice}

pub twice_zero : twice 0 ≡ 0
unfolding twice
twice_zero = refl

-- thrice is named in this comment alone
never_cited : (n : ℕ) → n ≡ n
never_cited n = refl
"""
ANSWERS = """use Rattle.low.proofs.Laws.{twice_zero}
use Rattle.low.proofs.double.Goals as goal

pub returns-clause-twice : goal.returns-clause-twice
returns-clause-twice g c = twice_zero
"""
LOW = """// Numbers.
ghost use Rattle.low.specs.Sums.{twice};

/// Twice a number below 100.
pub fn double(number: u8) -> u8
    requires { number < 100 }
    ensures twice { result ≡ twice number }
{
    number + number
}

pub fn triple(number: u8) -> u8 {
    double(number) + number
}

#[cfg(test)]
mod tests;
"""
TESTS = """use crate::triple;

#[test]
fn three() {
    assert_eq!(triple(1), 3);
}
"""
HIGH = """// Calls.
ghost use Rattle.low.specs.Sums.{◌⊕◌};

pub fn eight() -> u8
    ensures { result ≡ 2 ⊕ 3 }
{
    low::double(4)
}
"""
EDIT = "file: src/lib.rt\nold: number + number\nnew: number\n"
PAGE = "# Page\n\n`double` is in `low/src/lib.rt`.\n\n    high: low\n"
FILES = {
    "crates.txt": CRATES,
    ".gitignore": "__pycache__/\n",
    "crates/low/src/lib.rt": LOW,
    "crates/low/src/tests.rt": TESTS,
    "crates/low/specs/Sums.antt": SUMS,
    "crates/low/proofs/Laws.antt": LAWS,
    "crates/low/proofs/double/Answers.antt": ANSWERS,
    "crates/low/must-fail/once.edit": EDIT,
    "crates/high/src/lib.rt": HIGH,
    "crates/other/src/lib.rt": "// Nothing.\n",
    "docs/PAGE.md": PAGE,
}


def run_git(top, *words):
    given = ["-c", "user.name=Test", "-c", "user.email=test@example.com", "-c", "commit.gpgsign=false"]
    subprocess.run(["git", *given, *words], cwd=top, check=True, capture_output=True)


class Habits(unittest.TestCase):
    """A repository with three crates, committed."""

    @classmethod
    def setUpClass(cls):
        cls.whole = Path(tempfile.mkdtemp(prefix="habits-"))
        cls.addClassCleanup(shutil.rmtree, cls.whole)
        for name, text in FILES.items():
            (cls.whole / name).parent.mkdir(parents=True, exist_ok=True)
            (cls.whole / name).write_text(text, encoding="utf-8")
        (cls.whole / "tools").mkdir()
        for name in COPIED:
            shutil.copy(TOOLS / name, cls.whole / "tools" / name)
        run_git(cls.whole, "init", "-q")
        run_git(cls.whole, "add", "-A")
        run_git(cls.whole, "commit", "-q", "-m", "all")

    def setUp(self):
        self.top = Path(tempfile.mkdtemp(prefix="habits-")) / "top"
        self.addCleanup(shutil.rmtree, self.top.parent)
        shutil.copytree(self.whole, self.top)

    def git(self, *words):
        run_git(self.top, *words)

    def commit(self):
        self.git("add", "-A")
        self.git("commit", "-q", "-m", "all")

    def write(self, name, text):
        path = self.top / name
        path.parent.mkdir(parents=True, exist_ok=True)
        path.write_text(text, encoding="utf-8")

    def change(self, name, old, new):
        text = (self.top / name).read_text(encoding="utf-8")
        self.assertIn(old, text)
        self.write(name, text.replace(old, new))

    def run_tool(self, tool, *words):
        command = [sys.executable, self.top / "tools" / tool, *words]
        ran = subprocess.run(command, cwd=self.top, capture_output=True, text=True, check=False)
        self.assertNotIn("Traceback", ran.stderr)
        return ran.returncode, ran.stdout, ran.stderr


class Uses(Habits):
    def test_definition_is_cited_by_contract_proof_and_definition(self):
        status, output, _ = self.run_tool("uses", "Sums.twice")
        self.assertEqual(status, 0)
        self.assertIn("crates/low/specs/Sums.antt:5: definition twice\n", output)
        self.assertIn("crates/low/specs/Sums.antt:9,12\n", output)
        self.assertIn("crates/low/proofs/Laws.antt:4,5\n", output)
        self.assertIn("crates/low/src/lib.rt:7\n", output)
        self.assertNotIn("crates/high", output)

    def test_operator_is_found_by_its_sign(self):
        _, output, _ = self.run_tool("uses", "◌⊕◌")
        self.assertIn("crates/high/src/lib.rt:5\n", output)
        self.assertNotIn("crates/low/specs/Sums.antt:9,", output)

    def test_import_and_comment_are_no_citation(self):
        _, output, _ = self.run_tool("uses", "thrice")
        self.assertIn("  nobody\n", output)

    def test_function_is_called_and_quoted(self):
        _, output, _ = self.run_tool("uses", "double")
        self.assertIn("crates/low/src/lib.rt:13\n", output)
        self.assertIn("crates/high/src/lib.rt:7\n", output)
        self.assertIn("docs/PAGE.md:3\n", output)

    def test_search_by_using_cites_a_lemma(self):
        using = "#[tactic(auto, using(crate::proofs::Laws::never_cited))]\npub fn triple("
        self.change("crates/low/src/lib.rt", "pub fn triple(", using)
        _, output, _ = self.run_tool("uses", "never_cited")
        self.assertIn("crates/low/src/lib.rt:12\n", output)
        _, output, _ = self.run_tool("uses", "--dead", "low")
        self.assertNotIn("never_cited", output)

    def test_dead(self):
        status, output, _ = self.run_tool("uses", "--dead")
        self.assertEqual(status, 0)
        self.assertEqual(output.splitlines(), [
            "crates/high/src/lib.rt:4: function eight: no code names it",
            "crates/low/proofs/Laws.antt:9: definition never_cited: nobody cites it",
            "crates/low/specs/Sums.antt:11: definition thrice: nobody cites it",
            "crates/low/src/lib.rt:12: function triple: tests alone name it",
        ])

    def test_unknown_names(self):
        self.assertEqual(self.run_tool("uses", "nothing_has_it")[0], 1)
        self.assertEqual(self.run_tool("uses")[0], 2)
        status, _, error = self.run_tool("uses", "--dead", "absent")
        self.assertEqual((status, error), (2, "uses: crates.txt has no crate absent\n"))


class AfterEdit(Habits):
    def test_nothing_changed(self):
        self.assertEqual(self.run_tool("after-edit"), (0, "nothing changed\n", ""))

    def test_code_means_the_crates_above(self):
        self.change("crates/low/src/lib.rt", "    number + number\n", "    2 * number\n")
        _, output, _ = self.run_tool("after-edit")
        commands = output.partition("commands:\n")[2].split("\n  ")
        self.assertEqual([line.strip() for line in commands], [
            "tools/lint",
            "cd crates/low && rt check",
            "cd crates/high && rt check",
            "cd crates/low && rt test",
            "rt must-fail low",
        ])
        self.assertIn("once.edit:2: rewrite it: its text stands 0 times\n", output)
        self.assertIn("docs/PAGE.md:3: double, crates/low/src/lib.rt\n", output)

    def test_wrong_bodies_that_the_gate_leaves_out(self):
        self.write("examples/wrong_bodies/low/half.edit", EDIT)
        self.commit()
        self.change("crates/low/src/lib.rt", "    number + number\n", "    number + number + 0\n")
        _, output, _ = self.run_tool("after-edit")
        self.assertIn("examples/wrong_bodies/low/half.edit:2: try it again\n", output)
        self.assertIn("  rt must-fail low\n  tools/wrong-bodies low/half\n", output)

    def test_proofs_mean_their_crate(self):
        self.change("crates/low/proofs/Laws.antt", "never_cited n = refl", "never_cited n = sym refl")
        _, output, _ = self.run_tool("after-edit")
        self.assertIn("cd crates/low && rt check\n", output)
        self.assertNotIn("high", output)

    def test_proofs_that_another_crate_cites(self):
        self.write("crates/high/proofs/More.antt", "use Rattle.low.proofs.Laws.{twice_zero}\n")
        self.commit()
        self.change("crates/low/proofs/Laws.antt", "never_cited n = refl", "never_cited n = sym refl")
        _, output, _ = self.run_tool("after-edit")
        self.assertIn("high             cites proofs of low\n", output)

    def test_tests_mean_their_tests(self):
        self.change("crates/low/src/tests.rt", "3", "4 - 1")
        _, output, _ = self.run_tool("after-edit")
        self.assertNotIn("rt check", output)
        self.assertIn("cd crates/low && rt test\n", output)

    def test_line_of_crates(self):
        self.change("crates.txt", "other:", "other: low")
        _, output, _ = self.run_tool("after-edit")
        self.assertIn("cd crates/other && rt check\n", output)
        self.assertNotIn("cd crates/low", output)

    def test_since_and_new_files(self):
        self.change("crates/low/src/lib.rt", "Numbers", "Small numbers")
        self.commit()
        self.write("docs/NEW.md", "# New\n")
        _, output, _ = self.run_tool("after-edit", "--since", "HEAD~1")
        self.assertIn("cd crates/high && rt check\n", output)
        self.assertIn("./gczone test documents\n", output)
        status, _, error = self.run_tool("after-edit", "--since", "nowhere")
        self.assertEqual(status, 2)
        self.assertTrue(error.startswith("after-edit: "))

    def test_run_stops_at_the_first_failure(self):
        self.change("crates/other/src/lib.rt", "Nothing.", "So many words.")
        status, output, error = self.run_tool("after-edit", "--run")
        self.assertEqual(status, 1)
        self.assertIn("$ tools/lint\n", output)
        self.assertNotIn("$ cd crates/other", output)
        self.assertEqual(error, "after-edit: `tools/lint` failed with status 1\n")


class Lint(Habits):
    def findings(self, *words):
        self.git("add", "-A")
        status, output, error = self.run_tool("lint", *words)
        self.assertIn(status, (0, 1), error)
        self.assertEqual(status, 1 if output else 0)
        return output.splitlines()

    def expect(self, rule, name, text, *endings):
        """What a rule finds in a file of this text: lines that end so."""
        self.write(name, text)
        found = self.findings(rule)
        self.assertEqual(len(found), len(endings), found)
        for line, ending in zip(found, endings):
            self.assertTrue(line.startswith(f"{name}:"), line)
            self.assertTrue(line.endswith(ending), line)

    def test_clean(self):
        self.assertEqual(self.findings(), [])

    def test_layout(self):
        self.expect("tab", "docs/A.md", "a\tb\n", ":1: tab: a tab")
        self.expect("trailing-space", "docs/A.md", "a\nb \n", ":2: trailing-space: a blank at the end")
        self.expect("long-line", "docs/A.md", "a" * 121 + "\n| " + "b" * 130 + "\n", ":1: long-line: 121 characters")

    def test_words(self):
        text = "// There are so many.\nfn so_many() {}\n"
        ending = ":1: phrase: `so many`: say how many, or repeat the noun"
        self.expect("phrase", "crates/other/src/lib.rt", text, ending)
        self.expect("same-comment", "crates/other/src/lib.rt", "// The same again.\n", "repeat the noun")
        self.expect("same-comment", "crates/other/src/lib.rt", "// It is\n// the same again.\n")
        self.expect("phrase", "docs/A.md", 'Not "is told", not *so many*, nor `so many`.\n')

    def test_labels_and_paths(self):
        self.expect("label", "docs/A.md", "As R" "14 asks.\n", "`R" "14`: a label that no reader here knows")
        self.expect("machine-path", "tools/a.py", 'a = "/ro' 'ot/x"\n', ":1: machine-path: `/ro" "ot`")
        self.expect("label", "docs/A.md", "In `T4` and r0.\n")

    def test_literal(self):
        text = "pub fn most() -> u32 {\n    4_294_967_295\n}\n"
        ending = ":2: literal: 4294967295: the limit of cells or lines, or `u32::MAX`"
        self.expect("literal", "crates/other/src/lib.rt", text, ending)

    def test_libraries(self):
        self.change("crates.txt", "other:", "other: low")
        self.assertEqual(self.findings("libraries"), ["crates.txt:3: libraries: other names low nowhere"])
        self.change("crates.txt", "other: low", "other:")
        self.expect("libraries", "crates/other/src/lib.rt", "fn f() { low::double(1); }\n",
                    ":1: libraries: crates.txt does not list low for other")

    def test_ring(self):
        for one, two in (("ones", "twos"), ("twos", "ones")):
            self.write(f"crates/low/proofs/{one}.antt", "pub mod A\n")
            self.write(f"crates/low/proofs/{one}/A.antt", f"use Rattle.low.proofs.{two}.A.{{a}}\n")
        self.assertEqual(self.findings("folder-ring"), [
            "crates/low/proofs/ones/A.antt:1: folder-ring: ones uses twos, and they use it",
            "crates/low/proofs/twos/A.antt:1: folder-ring: twos uses ones, and they use it",
        ])

    def test_arguments(self):
        names = " ".join("abcdefghi")
        text = f"module _ ({names} : ℕ) where\n  pub law : (j : ℕ) → j ≡ j → ℕ\n  law j e = j\n"
        self.expect("section-parameters", "crates/low/proofs/B.antt", text, ":1: section-parameters: 9 parameters: make"
                    " one record of what is known")
        self.expect("lemma-arguments", "crates/low/proofs/B.antt", text, ":2: lemma-arguments: law has 11: make one"
                    " record of what is known")
        text = "pub fn many(" + ", ".join(f"{name}: Vec<(u8, u8)>" for name in "abcdefgh") + ") {}\n"
        self.expect("function-arguments", "crates/other/src/lib.rt", text, "many has 8")

    def test_long_section(self):
        text = "module _ (a : ℕ) where\n" + "  b : ℕ\n  b = a\n\n" * 60
        self.expect("long-section", "crates/low/proofs/B.antt", text, "a section of 180 lines")

    def test_edits(self):
        text = "file: src/lib.rt\nold: no such text\nnew: other\n"
        for name in ("crates/low/must-fail/more.edit", "examples/wrong_bodies/low/more.edit"):
            self.expect("edit-text", name, text, ":2: edit-text: stands 0 times in crates/low/src/lib.rt: no such text")
            (self.top / name).unlink()
        for count in range(7):
            self.write(f"crates/low/must-fail/{count}.edit", EDIT)
            self.write(f"examples/wrong_bodies/low/{count}.edit", EDIT)
        self.assertEqual(len(self.findings("edit-count")), 2)

    def test_documents(self):
        self.expect("document-crates", "docs/PAGE.md", "    high: low other\n", "crates.txt says: high: low")
        text = "See docs/NONE.md and crates/NAME/src.\n"
        self.expect("document-files", "docs/PAGE.md", text, "there is no docs/NONE.md")
        self.write("crates/low/proofs/ones.antt", "pub mod A\n")
        self.write("crates/low/proofs/ones/A.antt", "\n")
        text = "The lemmas of low stand in folders by phase (`twos`).\n"
        self.expect("document-folders", "docs/PAGE.md", text, "low has a folder ones too", "low has no folder twos")

    def test_python(self):
        self.expect("python-compiles", "tools/a.py", "def f(:\n", "invalid syntax")
        self.expect("python-quotes", "tools/a.py", "a = 'one'\nb = '\"'\n", ":1: python-quotes: 'one'")
        self.write("tools/a.py", "#!/usr/bin/env python3\n")
        self.assertEqual(self.findings("executable"), ["tools/a.py:1: executable: may not be run"])
        os.chmod(self.top / "tools/a.py", 0o755)
        self.assertEqual(self.findings("executable"), [])

    def test_numbers_may_only_fall(self):
        self.write("docs/A.md", "a \nb \n")
        self.write("tools/lint.allow", "trailing-space docs 2: a test\n")
        self.assertEqual(self.findings(), [])
        self.write("docs/A.md", "a \nb \nc \n")
        self.assertEqual(self.findings()[-1], "tools/lint.allow:1: trailing-space: 3 in docs, where 2 may pass")
        self.write("docs/A.md", "a \n")
        self.git("add", "-A")
        status, output, error = self.run_tool("lint")
        self.assertEqual((status, output), (0, ""))
        self.assertIn("1 numbers of tools/lint.allow are higher than needed", error)
        self.assertEqual(self.run_tool("lint", "--lower")[0], 0)
        self.assertEqual((self.top / "tools/lint.allow").read_text(), "trailing-space docs 1: a test\n")
        self.write("docs/A.md", "a\n")
        self.run_tool("lint", "--lower")
        self.assertEqual((self.top / "tools/lint.allow").read_text(), "\n")

    def test_bad_list_and_rule(self):
        self.write("tools/lint.allow", "trailing-space docs: no number\n")
        status, _, error = self.run_tool("lint")
        self.assertEqual((status, error), (2, "lint: tools/lint.allow:1: a line is `RULE PLACE NUMBER: WHY`\n"))
        self.assertEqual(self.run_tool("lint", "no-rule")[0], 2)


if __name__ == "__main__":
    unittest.main()
