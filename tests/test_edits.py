#!/usr/bin/env python3
"""Tests of edits_check.py: it finds each kind of edit that cannot be made, and says where it is."""
import pathlib
import tempfile
import unittest

import edits_check as checker

CODE = "let low = 0;\nlet high = 1;\nlow + low\n"

GOOD = [
    "# The bound is off by one.\nfile: src/lib.rt\nold: high = 1\nnew: high = 2\n",
    "# Without the line feed at the end.\nfile: src/lib.rt\nold: high = 1\nnew: high = 2",
    "# A text goes.\nfile: src/lib.rt\nold: low + \nnew:\n",
    "# Two files, and a line that is passed over.\n\nfile: specs/Low.antt\nold: low\nnew: high\n# the code\n"
    "file: src/lib.rt\nold: high = 1\nnew: high = 2\n",
    "# The second pair sees the first.\nfile: src/lib.rt\nold: low + low\nnew: top\nold: low\nnew: top\n",
]

# An edit, the line of its fault, and what is said of it.
BAD = [
    ("file: src/lib.rt\nold: high\nnew: top\n", 1, "the first line is not a comment"),
    ("#\nfile: src/lib.rt\nold: high\nnew: top\n", 1, "the first line is not a comment"),
    ("# x\nfile: src/main.rt\nold: high\nnew: top\n", 2, "there is no file src/main.rt in src/ or specs/ of crate one"),
    ("# x\nfile: proofs/Low.antt\nold: low\nnew: top\n", 2, "there is no file proofs/Low.antt"),
    ("# x\nfile: src/../specs/Low.antt\nold: low\nnew: top\n", 2, "there is no file src/../specs/Low.antt"),
    ("# x\nold: high\nnew: top\n", 3, "there is no good 'file:' before this pair"),
    ("# x\nfile: src/lib.rt\nold: gone\nnew: top\n", 4, "the old text is 0 times in src/lib.rt, not once: gone"),
    ("# x\nfile: src/lib.rt\nold: low\nnew: top\n", 4, "the old text is 3 times in src/lib.rt, not once: low"),
    ("# x\nfile: src/lib.rt\nold: \nnew: top\n", 4, "the old text is 0 times in src/lib.rt, not once: "),
    ("# x\nfile: src/lib.rt\nold: high = 1\nnew: top\nold: high\nnew: top\n", 6, "the old text is 0 times"),
    ("# x\nfile: src/lib.rt\nold: high = 1\nnew: low = 0\nold: low = 0\nnew: top\n", 6, "the old text is 2 times"),
    ("# x\nfile: src/lib.rt\nold: high\nnew: high\n", 4, "the old text and the new one are the same"),
    ("# x\nfile: src/lib.rt\nold: high\nold: low;\nnew: top\n", 4, "the 'old:' before this one has no 'new:'"),
    ("# x\nfile: src/lib.rt\nnew: top\n", 3, "there is no 'old:' before this 'new:'"),
    ("# x\nfile: src/lib.rt\nold: high\n", 3, "the edit ends without a 'new:'"),
    ("# x\nfile: src/lib.rt\n", 2, "the edit ends without a 'new:'"),
    ("# x\nfile: src/lib.rt\nold: high\nnew: top\nold:low\n", 5, "neither a comment nor"),
]


class Edits(unittest.TestCase):
    def found(self, edit):
        """The findings in a repository with one crate and this edit."""
        with tempfile.TemporaryDirectory() as folder:
            crate = pathlib.Path(folder) / "crates" / "one"
            for file, text in {"src/lib.rt": CODE, "specs/Low.antt": "low\n", "proofs/Low.antt": "low\n",
                               "must-fail/two.edit": edit}.items():
                (crate / file).parent.mkdir(parents=True, exist_ok=True)
                (crate / file).write_text(text)
            return checker.findings(pathlib.Path(folder))[0]

    def test_good_edits(self):
        for edit in GOOD:
            with self.subTest(edit=edit):
                self.assertEqual(self.found(edit), [])

    def test_bad_edits(self):
        for edit, line, said in BAD:
            with self.subTest(edit=edit):
                first = self.found(edit)[0]
                self.assertTrue(first.startswith(f"crates/one/must-fail/two.edit:{line}: "), first)
                self.assertIn(said, first)


if __name__ == "__main__":
    unittest.main()
