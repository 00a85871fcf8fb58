#!/usr/bin/env python3
"""Tests of tools/instructions.py."""
import contextlib
import io
import pathlib
import sys
import unittest
from unittest import mock

ROOT = pathlib.Path(__file__).resolve().parent.parent
sys.path.insert(0, str(ROOT / "tools"))
import instructions  # noqa: E402

LIST = """whole DTD\tplain\tone parent
whole DTD\trescan\tone parent
model of one parent\tplain\tone parent
a word accepted or not\tplain\tone parent
a word accepted or not\tby value\tone parent
a word of 3 names\tplain\tone parent
a word of 3 names\tby value\tone parent
whole DTD\tlibrary\tone parent
model of one parent\tlibrary\tone parent
a word accepted or not\tlibrary\tone parent
a word of 3 names\tlibrary\tone parent
within: yes\tplain\t6 names, 3 factors
within: yes\tlibrary\t6 names, 3 factors
"""
# The instructions of a call; before the first one each run has 1,000,000.
COUNTS = {("whole DTD", "library"): 300_000, ("whole DTD", "plain"): 200_000, ("whole DTD", "rescan"): 4_000_000,
          ("model of one parent", "library"): 1_500, ("model of one parent", "plain"): 3_000,
          ("a word accepted or not", "library"): 7_000, ("a word accepted or not", "plain"): 5_000,
          ("a word accepted or not", "by value"): 28_000, ("a word of 3 names", "library"): 600,
          ("a word of 3 names", "plain"): 800, ("a word of 3 names", "by value"): 1_000,
          ("within: yes", "library"): 900, ("within: yes", "plain"): 1_000}
WHOLE = """\
| book | library / plain | library / rescan |
|---|---|---|
| one parent | 300 / 200 = 1.50 | 300 / 4,000 = 0.07 |

"""
WORDS = """\
| book | a word accepted or not: library / plain | a word accepted or not: library / by value | \
a word of 3 names: library / plain | a word of 3 names: library / by value |
|---|---|---|---|---|
| one parent | 7.0 / 5.0 = 1.40 | 7.0 / 28.0 = 0.25 | 0.6 / 0.8 = 0.75 | 0.6 / 1.0 = 0.60 |

"""
ALL = """\
| book | whole DTD | model of one parent | a word accepted or not | a word of 3 names |
|---|---|---|---|---|
| one parent | 300 / 200 = 1.50 | 1.5 / 3.0 = 0.50 | 7.0 / 5.0 = 1.40 | 0.6 / 0.8 = 0.75 |

"""
PAIRS = """\
| models | within: yes |
|---|---|
| 6 names, 3 factors | 0.9 / 1.0 = 0.90 |
"""
MODEL = """\
| book | model of one parent |
|---|---|
| one parent | 1.5 / 3.0 = 0.50 |
"""
SHORT = """\
| book | a word of 3 names: library / plain | a word of 3 names: library / by value |
|---|---|---|
| one parent | 0.6 / 0.8 = 0.75 | 0.6 / 1.0 = 0.60 |

| book | a word of 3 names |
|---|---|
| one parent | 0.6 / 0.8 = 0.75 |
"""


def stub(*command):
    """What the commands print: the build nothing, the benchmark its list, valgrind the count of a run."""
    if command[0] == "valgrind":
        figure, who, _, calls = command[-4:]
        return "", f"==1== Collected : {1_000_000 + int(calls) * COUNTS[figure, who]}\n"
    return LIST if command[-1] == "--list" else "", ""


class Instructions(unittest.TestCase):
    def status(self, *options, run=stub):
        self.out, self.said = io.StringIO(), io.StringIO()
        with contextlib.ExitStack() as stack:
            stack.enter_context(mock.patch.object(instructions, "run", run))
            stack.enter_context(mock.patch.object(instructions.shutil, "which", lambda tool: tool))
            stack.enter_context(contextlib.redirect_stdout(self.out))
            stack.enter_context(contextlib.redirect_stderr(self.said))
            try:
                return instructions.main(list(options))
            except SystemExit as end:
                return end.code

    def test_all_figures(self):
        self.assertEqual(self.status(), 0)
        self.assertEqual(self.out.getvalue(), WHOLE + WORDS + ALL + PAIRS)

    def test_one_figure(self):
        for figure, table in [("model of one parent", MODEL), ("a word of 3 names", SHORT), ("within: yes", PAIRS)]:
            self.assertEqual(self.status("--figure", figure), 0)
            self.assertEqual(self.out.getvalue(), table)

    def test_an_unknown_figure(self):
        self.assertEqual(self.status("--figure", "model"), 2)
        self.assertIn("the figures are: whole DTD, model of one parent", self.said.getvalue())

    def test_no_count(self):
        self.assertEqual(self.status(run=lambda *command: (stub(*command)[0], "no memory")), 2)
        self.assertIn("valgrind printed no count: no memory", self.said.getvalue())

    def test_what_the_benchmark_takes_and_prints(self):
        bench = (ROOT / "rust" / "plain" / "src" / "bench.rs").read_text(encoding="utf-8")
        names = [f'= "{figure}";' for figure in (instructions.WHOLE, *instructions.WORDS, *instructions.PAIRS)]
        for part in ['["--once", figure, who, kind, calls] =>', '"{}\\t{}\\t{kind}"', ', "by value", ', *names]:
            self.assertIn(part, bench)


if __name__ == "__main__":
    unittest.main()
