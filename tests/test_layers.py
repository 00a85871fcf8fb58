#!/usr/bin/env python3
"""Tests of tools/layers.py."""
import pathlib
import re
import sys
import unittest

ROOT = pathlib.Path(__file__).resolve().parent.parent
sys.path.insert(0, str(ROOT / "tools"))
import layers  # noqa: E402

SMALL = """## low: Below.
# One.
a:
# Two (no function).
b: a
## high: Above.
# Three.
c staticlib: a b io
"""


class Layers(unittest.TestCase):
    def test_reading(self):
        groups, deps, bare = layers.read(SMALL)
        self.assertEqual(groups, {"low": ["a", "b"], "high": ["c"]})
        self.assertEqual(deps, {"a": [], "b": ["a"], "c": ["a", "b"]})
        self.assertEqual(bare, {"b"})

    def test_what_follows_from_others_is_left_out(self):
        self.assertEqual(layers.text(*layers.read(SMALL)), "low:\n  a:\n  b: a (no function)\n\nhigh:\n  c: b")

    def test_a_crate_before_its_dependency(self):
        with self.assertRaisesRegex(SystemExit, "crates.txt:3: a comes before c"):
            layers.read(SMALL.replace("a:", "a: c", 1))

    def test_a_crate_in_no_group(self):
        with self.assertRaisesRegex(SystemExit, "crates.txt:1: a comes before the first line"):
            layers.read("a:\n" + SMALL)

    def test_no_two_boxes_touch(self):
        parts = layers.read((ROOT / "crates.txt").read_text())
        found = re.findall(r'<rect x="(\d+)" y="(\d+)" width="(\d+)" height="\d+" rx="4"', layers.svg(*parts))
        boxes = sorted((int(y), int(x), int(x) + int(width)) for x, y, width in found)
        self.assertEqual(len(boxes), len(parts[1]))
        for (row, _, end), (other, start, _) in zip(boxes, boxes[1:]):
            self.assertTrue(row < other or end < start)


if __name__ == "__main__":
    unittest.main()
