#!/usr/bin/env python3
"""Tests of tools/two_builds.py."""
import contextlib
import io
import pathlib
import sys
import tempfile
import unittest
from unittest import mock

ROOT = pathlib.Path(__file__).resolve().parent.parent
sys.path.insert(0, str(ROOT / "tools"))
import two_builds  # noqa: E402

PRINTED = """many short words: 60000 bytes, a word of 255 names
  whole DTD                    rescan        50.0000 µs least      51.0000 µs median
  model of one parent          library       70.0000 µs least      71.0000 µs median
  model of one parent          plain         40.0000 µs least      41.0000 µs median
  a word accepted or not       by value       2.5000 µs least       2.6000 µs median
  a word accepted or not       library        0.3500 µs least       0.3600 µs median
one parent: 59999 bytes, a word of 255 names
  a word accepted or not       library        0.5000 µs least       0.6000 µs median

| book | model of one parent |
|---|---|
| many short words | 70.00 / 40.00 = 1.75 |
"""
MODEL = ("many short words", "model of one parent")
WORD = ("many short words", "a word accepted or not")
LAST = ("one parent", "a word accepted or not")
TABLE = """\
book                         call                          old, µs    new, µs  ratio
many short words             model of one parent                70         70  1.000
many short words             a word accepted or not            0.2       0.25  1.250
one parent                   a word accepted or not            0.5       0.75  1.500 above"""


def told(model, word, last):
    return PRINTED.replace("70.0000", str(model)).replace("0.3500", str(word)).replace("0.5000", str(last))


def one_layout(libraries):
    return {(which, None): library for which, library in libraries.items()}


class TwoBuilds(unittest.TestCase):
    def test_the_library_s_least_times_are_read(self):
        self.assertEqual(two_builds.figures(PRINTED), {MODEL: 70.0, WORD: 0.35, LAST: 0.5})

    def test_what_the_benchmark_prints_is_what_is_read(self):
        bench = (ROOT / "rust" / "plain" / "src" / "bench.rs").read_text(encoding="utf-8")
        for part in [
            '"  {figure:<28} {who:<8} {least:>12.4} µs least {median:>12.4} µs median"',
            'println!("{kind}: {} bytes, ',
            'work(MODEL, "library", ',
        ]:
            self.assertIn(part, bench)

    def test_the_table(self):
        old, new = {MODEL: 70.0, WORD: 0.2, LAST: 0.5}, {MODEL: 70.0, WORD: 0.25, LAST: 0.75}
        self.assertEqual("\n".join(two_builds.table(old, new, 1.25)), TABLE)


class Main(unittest.TestCase):
    """The whole program, where a build is the name of its library, and a run of it prints what `prints` has next."""

    def status(self, prints, *options):
        self.out, self.said = io.StringIO(), io.StringIO()
        with contextlib.ExitStack() as stack:
            folder = pathlib.Path(stack.enter_context(tempfile.TemporaryDirectory()))
            for name in prints:
                (folder / name).write_bytes(name.encode())
            later = {name.encode(): iter(texts) for name, texts in prints.items()}
            for name, stub in {"benches": one_layout, "run": lambda bench: next(later[bench]), "ROUNDS": 2}.items():
                stack.enter_context(mock.patch.object(two_builds, name, stub))
            stack.enter_context(mock.patch.object(two_builds.shutil, "which", lambda tool: tool))
            stack.enter_context(contextlib.redirect_stdout(self.out))
            stack.enter_context(contextlib.redirect_stderr(self.said))
            try:
                return two_builds.main([str(folder / "old"), str(folder / "new"), *options])
            except SystemExit as end:
                return end.code

    def test_the_least_of_all_runs_counts(self):
        slow = told(140, 0.70, 1.00)
        prints = {"old": [slow, told(70, 0.2, 0.5)], "new": [told(70, 0.25, 0.75), slow]}
        self.assertEqual(self.status(prints, "--limit", "1.25"), 1)
        self.assertEqual(self.out.getvalue(), TABLE + "\n1 of 3 ratios above 1.25\n")

    def test_status_0_where_no_ratio_is_above_a_tenth(self):
        self.assertEqual(self.status({"old": [PRINTED] * 2, "new": [told(76.9, 0.1, 0.1)] * 2}), 0)
        self.assertEqual(self.status({"old": [PRINTED] * 2, "new": [told(77.1, 0.1, 0.1)] * 2}), 1)

    def test_status_2_where_nothing_can_be_timed(self):
        other = PRINTED.replace("one parent:", "no parent:")
        for new in (["", ""], [PRINTED, ""], [PRINTED, other], [other, other]):
            self.assertEqual(self.status({"old": [PRINTED] * 2, "new": new}), 2)
            self.assertIn("printed no times", self.said.getvalue())
        self.assertEqual(self.status({"old": [PRINTED] * 2}), 2)
        self.assertIn("No such file", self.said.getvalue())
        self.assertEqual(self.status({"old": [PRINTED] * 2, "new": [PRINTED] * 2}, "--limit", "nan"), 2)


if __name__ == "__main__":
    unittest.main()
