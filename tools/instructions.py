#!/usr/bin/env python3
"""The instructions of one call of each implementation on each input of the benchmark, as tables in Markdown.

  instructions.py [--figure FIGURE]..   FIGURE is one that `bench --list` names; all of them unless given

The library is target/staticlib/libcurlewsong.a, or the one in the folder CURLEWSONG_LIB. Each call is made once and
eleven times under valgrind's callgrind; a count is a tenth of the difference, in thousands. So what is done before the
first call does not count. Exits 2 where nothing can be counted. All figures take about five minutes.
"""
import argparse
import pathlib
import re
import shutil
import subprocess
import sys

ROOT = pathlib.Path(__file__).resolve().parent.parent
BENCH = ROOT / "rust" / "target" / "release" / "bench"
BUILD = ["cargo", "build", "--offline", "--release", "--quiet", "--manifest-path", str(ROOT / "rust" / "Cargo.toml"),
         "-p", "plain", "--features", "library", "--bin", "bench"]
TOOLS = {"cargo": "https://rustup.rs", "valgrind": "the Debian package valgrind"}
COLLECTED = re.compile(r"Collected : (\d+)")
FEW, MANY = 1, 11
WHOLE = "whole DTD"
WORDS = ["a word accepted or not", "a word of 3 names"]
PAIRS = ["within: yes", "within: no"]


def fail(why):
    print(f"instructions: {why}", file=sys.stderr)
    sys.exit(2)


def run(*command):
    """What the command prints, on standard output and on standard error."""
    done = subprocess.run(command, stdout=subprocess.PIPE, stderr=subprocess.PIPE, encoding="utf-8")
    if done.returncode:
        fail(f"{command[0]} ended with status {done.returncode}: {done.stderr.strip()}")
    return done.stdout, done.stderr


def collected(figure, who, kind, calls):
    """The instructions of the whole run with so many calls."""
    _, said = run("valgrind", "--tool=callgrind", "--callgrind-out-file=/dev/null",
                  str(BENCH), "--once", figure, who, kind, str(calls))
    found = COLLECTED.search(said)
    return int(found[1]) if found else fail(f"valgrind printed no count: {said.strip()}")


def counted(figure, who, kind):
    """The instructions of one call, in thousands."""
    print(f"counting {figure}, {who}, {kind}", file=sys.stderr)
    return (collected(figure, who, kind, MANY) - collected(figure, who, kind, FEW)) / (MANY - FEW) / 1000


def short(count):
    return f"{count:,.0f}" if count >= 100 else f"{count:.1f}"


def cell(counts, kind, figure, other):
    """The library's count, the other's, and their ratio."""
    one, two = counts[figure, "library", kind], counts[figure, other, kind]
    return f"{short(one)} / {short(two)} = {one / two:.2f}"


def table(counts, columns, inputs="book"):
    """A row for each input; the columns have a head, a figure, and the one beside the library."""
    shown = {figure for _, figure, _ in columns}
    lines = [[inputs, *(head for head, _, _ in columns)]]
    for kind in dict.fromkeys(kind for figure, _, kind in counts if figure in shown):
        lines.append([kind, *(cell(counts, kind, figure, other) for _, figure, other in columns)])
    first, *others = ["| " + " | ".join(line) + " |" for line in lines]
    return "\n".join([first, "|" + "---|" * len(lines[0]), *others])


def tables(counts):
    """The whole DTD and the words beside both others, and each figure beside plain: those of books, those of pairs."""
    figures = list(dict.fromkeys(figure for figure, _, _ in counts))
    if WHOLE in figures:
        yield table(counts, [(f"library / {other}", WHOLE, other) for other in ("plain", "rescan")])
    if words := [figure for figure in WORDS if figure in figures]:
        yield table(counts, [(f"{figure}: library / {other}", figure, other)
                             for figure in words for other in ("plain", "by value")])
    for inputs, of_pairs in [("book", False), ("models", True)]:
        if columns := [(figure, figure, "plain") for figure in figures if (figure in PAIRS) == of_pairs]:
            yield table(counts, columns, inputs)


def main(arguments):
    parser = argparse.ArgumentParser(description=__doc__, formatter_class=argparse.RawDescriptionHelpFormatter)
    parser.add_argument("--figure", action="append", metavar="FIGURE")
    given = parser.parse_args(arguments)
    for tool, source in TOOLS.items():
        if not shutil.which(tool):
            fail(f"{tool} is missing. Get it from {source}.")
    run(*BUILD)
    works = [line.split("\t") for line in run(str(BENCH), "--list")[0].splitlines()]
    known = list(dict.fromkeys(figure for figure, _, _ in works))
    for figure in set(given.figure or []) - set(known):
        fail(f"there is no figure {figure}; the figures are: {', '.join(known)}")
    counts = {(figure, who, kind): counted(figure, who, kind) for figure, who, kind in works
              if figure in (given.figure or known)}
    print(*tables(counts), sep="\n\n")
    return 0


if __name__ == "__main__":
    sys.exit(main(sys.argv[1:]))
