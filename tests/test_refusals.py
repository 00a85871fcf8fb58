#!/usr/bin/env python3
"""Tests of refusals_check.py: it finds a difference of each kind, and says where it is and what should be there."""
import pathlib
import re
import shutil
import tempfile
import unittest

import refusals_check as checker

FILES = {place.file for place in checker.PLACES} | set(checker.TABLES_OF_CALLS) | {
    checker.HEADER, checker.CONDITIONS, checker.STOPS}

TWELVE = "the output buffer is shorter than the text to be written, or has fewer than 65 places for a word"

# A row in each place, and what the check says of it where its text or its name is changed.
ROWS = [
    (checker.LIST, "Refusal::NoBlock => 9,", "Refusal::BadWord => 9,"),
    (checker.TABLE, "number_of NoBlock = 9", "number_of BadWord = 9"),
    (checker.CONDITIONS, "(k ≡ 3) ↔ Stops bytes BadNameCount", "(k ≡ 3) ↔ Stops bytes BadName"),
    (checker.HEADER, f"*   12  {TWELVE}", "*   12  the buffer is too short"),
    ("rust/curlewsong/src/lib.rs", f'12 => "{TWELVE}",', '12 => "too short",'),
    ("tools/book.py", '3: "the count of names is 0 or above 64",', '3: "the count of names is above 64",'),
    ("tools/document.py", f'12: "{TWELVE}",', '12: "too short",'),
    ("docs/REFUSALS.md", "| `NoBlock` |", "| `BadWord` |"),
    ("docs/REFUSALS.md", f"| {TWELVE} |", "| the buffer is too short |"),
    ("docs/FORMAT.md", f"| {TWELVE} |", "| the buffer is too short |"),
]


class Refusals(unittest.TestCase):
    def setUp(self):
        folder = tempfile.TemporaryDirectory()
        self.addCleanup(folder.cleanup)
        self.root = pathlib.Path(folder.name)
        for file in FILES:
            (self.root / file).parent.mkdir(parents=True, exist_ok=True)
            shutil.copy(checker.ROOT / file, self.root / file)

    def planted(self, file, old, new):
        """The findings where one text of a file is another, and the number of its line; then it is put back.

        A space of the old text may be the end of a line in a comment of C.
        """
        text = (self.root / file).read_text()
        places = [m.span() for m in re.finditer(re.escape(old).replace(r"\ ", r"(?: |\n \* )"), text)]
        self.assertEqual(len(places), 1, f"{old} in {file}")
        (start, end), = places
        (self.root / file).write_text(text[:start] + new + text[end:])
        found = checker.findings(self.root)
        (self.root / file).write_text(text)
        return found, text[:start].count("\n") + 1

    def test_nothing_to_find(self):
        self.assertEqual(checker.findings(self.root), [])

    def test_another_text_or_name(self):
        for file, right, wrong in ROWS:
            with self.subTest(file=file):
                (found,), line = self.planted(file, right, wrong)
                said, should = found.split("\n    should be: ")
                self.assertTrue(said.startswith(f"{file}:{line}: "))
                self.assertIn(wrong, said)
                self.assertIn(right, should)

    def test_another_text_in_the_list(self):
        found, _ = self.planted(checker.LIST, f"// 12: {TWELVE}.", "// 12: too short.")
        self.assertEqual([one.split(":")[0] for one in found],
                         [checker.HEADER, "rust/curlewsong/src/lib.rs", "tools/document.py", "docs/REFUSALS.md",
                          "docs/FORMAT.md"])

    def test_another_number(self):
        """Two findings: no row has this number, and one row too many has the other."""
        found, line = self.planted("tools/book.py", '3: "the', '2: "the')
        self.assertEqual(len(found), 2)
        self.assertIn(f"tools/book.py:{line}: 2:", found[0])
        self.assertIn('a row is missing in the table\n    should be: 3: "the count', found[1])

    def test_a_row_that_is_missing_or_added(self):
        found, _ = self.planted(checker.TABLE, "number_of BadText = 16\n", "")
        self.assertIn("a row is missing in the table\n    should be: number_of BadText = 16", found[0])
        found, line = self.planted("tools/book.py", "    1: ", '    8: "new",\n    1: ')
        self.assertIn(f'tools/book.py:{line}: 8: "new",\n    should be: no such row', found[0])
        (found,), line = self.planted("tools/document.py", "    8: ", '    1: "new",\n    8: ')
        self.assertIn(f'tools/document.py:{line}: 1: "new",\n    should be: no such row', found)

    def test_a_new_refusal(self):
        """One line in each place is asked for."""
        last = "    TooDeep,\n"
        found, _ = self.planted(checker.LIST, last, last + "    // 20: it is late.\n    Late,\n")
        self.assertEqual([one.split("should be: ")[1] for one in found], [
            "Refusal::Late => 20,", "number_of Late = 20", "*   20  it is late", '20 => "it is late",',
            '20: "it is late",', "| 20 | `Late` | it is late |", "| 20 | it is late |"])

    def test_a_list_out_of_form(self):
        for old, new in (("// 3: ", "// 4: "), ("// 3: ", "// "), ("    BadName,\n", ""), ("    TooDeep,\n", "")):
            said = rf"{checker.LIST}:\d+: .*\n    should be: // \d+: text"
            with self.subTest(new=new), self.assertRaisesRegex(SystemExit, said):
                self.planted(checker.LIST, old, new)
            shutil.copy(checker.ROOT / checker.LIST, self.root / checker.LIST)

    def test_other_numbers_of_a_call(self):
        """They are those of the call's conditions, in that order."""
        for file, old, new in (
            ("README.md", "| 3, 10, 11 |", "| 3, 11, 10 |"),
            ("docs/REFUSALS.md", "`accepts_word` | 3, 10, 11 |", "`accepts_word` | 3, 10 |"),
            ("docs/FORMAT.md", "| the record: 10 | the word: 11 |", "| the record: 9 | the word: 11 |"),
            (checker.HEADER, "Refusals, in this order: 3, 10, 11.", "Refusals, in this order: 3, 10, 11, 12."),
        ):
            with self.subTest(file=file):
                (found,), line = self.planted(file, old, new)
                self.assertTrue(found.startswith(f"{file}:{line}: accepts_word: "))
                self.assertIn("should be: 3, 10, 11", found)

    def test_a_call_without_numbers(self):
        (found,), _ = self.planted(checker.HEADER, "Refusals, in this order: 3, 10, 11.", "")
        self.assertIn("the numbers of accepts_word are missing", found)

    def test_a_number_of_a_book_that_is_left_out(self):
        """Each call that takes a book gives 16 and 17, and so does the program."""
        for numbers in ("1 to 7, 12", "1 to 7, 16, 12", "1 to 7, 17, 12", "1 to 7, 16, 12, 17"):
            (found,), _ = self.planted("docs/REFUSALS.md", "`write_dtd` | 1 to 7, 16, 17, 12 |",
                                       f"`write_dtd` | {numbers} |")
            self.assertIn(f"write_dtd: {numbers}\n    should be: 1, 2, 3, 4, 5, 6, 7, 16, 17, 12", found)
        for row in ('16: "a text byte in the book is above 1",',
                    '17: "a name in the book is neither a parent nor a child in any block",'):
            (found,), _ = self.planted("tools/book.py", f"    {row}\n", "")
            self.assertIn(f"a row is missing in the table\n    should be: {row}", found)

    def test_other_calls_of_a_number(self):
        calls = "| `model_of_parent`, `write_from_sample` |"
        (found,), line = self.planted("docs/FORMAT.md", calls, "| `model_of_parent` |")
        self.assertEqual(found, f"docs/FORMAT.md:{line}: 9 is given by `model_of_parent`\n"
                                "    should be: model_of_parent, write_from_sample")

    def test_conditions_of_an_unknown_call(self):
        place = "-- Acceptance of the word"
        (found,), line = self.planted(checker.CONDITIONS, place, f"pub record NewConditions :\n\n{place}")
        self.assertTrue(found.startswith(f"{checker.CONDITIONS}:{line}: record NewConditions\n    should be: in CALLS"))

    def test_a_new_condition_of_a_book(self):
        """Its text is asked for in the tool for books, and no longer in the one for documents."""
        field = "  pub seven : (k ≡ 7)"
        found, _ = self.planted(checker.CONDITIONS, field, f"  pub eight : (k ≡ 8) ↔ Late\n{field}")
        self.assertIn('should be: 8: "the parent asked for', found[0])
        self.assertTrue(found[0].startswith("tools/book.py:"))
        self.assertRegex(found[1], "^tools/document.py:.* 8: .*\n    should be: no such row")

    def test_conditions_of_the_bytes_of_a_book(self):
        """Those of `Stops`, and no others, are stated by it."""
        row = "(k ≡ 16) ↔ Stops bytes BadText"
        (found,), _ = self.planted(checker.CONDITIONS, row, "(k ≡ 16) ↔ Late")
        self.assertTrue(found.startswith(checker.CONDITIONS))
        self.assertIn(f"a row is missing in the table\n    should be: {row}", found)
        (found,), _ = self.planted(checker.STOPS, "→ Stops s BadText", "→ Stops s Late")
        self.assertTrue(found.startswith(f"{checker.CONDITIONS}:"))
        self.assertIn(f"{row}\n    should be: no such row", found)

    def test_a_new_condition(self):
        """A number that a call gives besides is asked for in each place that lists its numbers."""
        field = "  pub eleven : (k ≡ 11)"
        found, _ = self.planted(checker.CONDITIONS, field, f"  pub nine : (k ≡ 9) ↔ Late\n{field}")
        self.assertEqual(sorted(one.split(":")[0] for one in found),
                         ["README.md", "docs/FORMAT.md", "docs/FORMAT.md", "docs/REFUSALS.md", checker.HEADER])


if __name__ == "__main__":
    unittest.main()
