"""Tests of the checks of the documents (examples/documents.py): each finds an error that is put into a document."""

import sys
import tempfile
import unittest
from pathlib import Path

TOP = Path(__file__).resolve().parent.parent.parent
sys.dont_write_bytecode = True
sys.path[:0] = [str(TOP / "tools"), str(TOP / "examples")]
import documents  # noqa: E402 (the folders are no packages)


class DocumentsTest(unittest.TestCase):
    def faults(self, check, page, old="", new=""):
        """What a check finds in a page in which one text, which stands there, is replaced."""
        path = TOP / page if (TOP / page).exists() else TOP / "docs" / page
        text = path.read_text()
        self.assertIn(old, text)
        with tempfile.TemporaryDirectory() as folder:
            path = Path(folder) / page
            path.write_text(text.replace(old, new, 1))
            return check(path).faults

    def test_a_paragraph_names_a_clause_that_is_not_there(self):
        check = documents.check_paragraphs
        self.assertEqual(self.faults(check, "PROOFS.md"), [])
        old = "`slice_driver::advance`: `err_where`"
        found = self.faults(check, "PROOFS.md", old, "`slice_driver::advance`: `err_when`")
        self.assertEqual(found, ["slice_driver::advance: `err_when`"])
        found = self.faults(check, "PROOFS.md", old, "`slice_driver::advance`")
        self.assertEqual(found, ["slice_driver::advance: no clause"])
        # A private function promises nothing to others.
        found = self.faults(check, "PROOFS.md", old, "`slice_driver::advance_one`: `err_where`")
        self.assertEqual(found, ["slice_driver::advance_one: `err_where`"])

    def test_a_row_names_a_clause_that_is_not_there(self):
        check = documents.check_clauses
        self.assertEqual(self.faults(check, "PROOFS.md"), [])
        row = "| `claim`: `won` | sweep_board/src/board.rt |"
        found = self.faults(check, "PROOFS.md", row, row.replace("won", "one"))
        self.assertEqual(found, ["sweep_board/src/board.rt: `claim`: `one`"])

    def test_edits_that_are_not_named_or_not_there(self):
        check = documents.check_edits
        self.assertEqual(self.faults(check, "PROOFS.md"), [])
        found = self.faults(check, "PROOFS.md", "`old_groups_stay`", "`new_groups_stay`")
        self.assertEqual(found, ["no edit sweep_groups/new_groups_stay", "not named: sweep_groups/old_groups_stay"])
        found = self.faults(check, "PROOFS.md", "`old_groups_stay`", "`clear_leaves_groups`, `old_groups_stay`")
        self.assertEqual(found, ["named twice: sweep_groups/clear_leaves_groups"])
        # Those that the gate leaves out stand apart.
        other = "slice_driver/hands_out_an_empty_list"
        found = self.faults(check, "PROOFS.md", f"`{other}`", "`zones/old_states_stay`")
        self.assertEqual(found, ["no edit zones/old_states_stay", f"not named: {other}"])
        found = self.faults(check, "PROOFS.md", "`zone_edges/component_split`", f"`{other}`")
        self.assertEqual(found, [f"no edit {other}", "not named: zone_edges/component_split"])

    def test_a_row_of_too_many_words(self):
        check = documents.check_rows
        self.assertEqual(self.faults(check, "PROOFS.md"), [])
        found = self.faults(check, "PROOFS.md", "| refuses every line |", f"| refuses every line {'so ' * 60}|")
        self.assertEqual(len(found), 1)
        self.assertRegex(found[0], "^[0-9]+ words, and 60 at most: ")

    def test_names_of_the_map(self):
        check = documents.check_map
        self.assertEqual(self.faults(check, "MAP.md"), [])
        self.assertEqual(self.faults(check, "MAP.md", "`place_for`", "`place_of_all`"), ["no place_of_all"])
        found = self.faults(check, "MAP.md", "heap_core heap/moving.rt", "heap_core moved.rt")
        self.assertEqual(found, ["no heap_core moved.rt"])
        self.assertEqual(self.faults(check, "MAP.md", "| ends_while_out |", "| ends_later |"), ["no trace ends_later"])

    def test_laws_and_the_clauses_of_a_session(self):
        self.assertEqual(self.faults(documents.check_laws, "SPECIFICATION.md"), [])
        found = self.faults(documents.check_laws, "SPECIFICATION.md", "`weak_law`", "`weak_laws`")
        self.assertEqual(found, ["no weak_law"])
        self.assertEqual(self.faults(documents.check_session, "EMBEDDING.md"), [])
        check, row = documents.check_session, "| `bound`, `value`, `none` |"
        found = self.faults(check, "EMBEDDING.md", row, "| `bound`, `nil` |")
        self.assertEqual(found, ["units_left: `bound`, `nil`"])

    def test_counts_of_lines(self):
        check = documents.check_counts
        self.assertEqual(self.faults(check, "PROOFS.md"), [])
        mark = "<!--lines:crates/colour_defs/specs/*.antt-->"
        found = self.faults(check, "PROOFS.md", mark, f" 9{mark}")
        self.assertEqual(len(found), 1)
        self.assertRegex(found[0], r"^9 lines of crates/colour_defs/specs/\*.antt, and there are [0-9,]+$")

    def test_the_version(self):
        check = documents.check_version
        self.assertEqual(self.faults(check, "README.md"), [])
        found = self.faults(check, "README.md", "<!--version-->", ".1<!--version-->")
        self.assertEqual(len(found), 1)
        self.assertRegex(found[0], r"^version ([\d.]+)\.1, and CHANGELOG\.md has \1$")


if __name__ == "__main__":
    unittest.main()
