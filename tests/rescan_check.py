#!/usr/bin/env python3
"""The program that rescans for each parent (docs/src/rescan.rs) prints what dtd prints.

Usage: python3 tests/rescan_check.py RESCAN DTD BENCH

The books are those of samples/, those of tests/book_cases.py on both sides of each limit, the benchmark's, which
BENCH --books writes, and books by chance, each as it is and with one byte changed. For each difference there is a line
with the book and the first output line that differs; the status is 1 if there is one, else 0.
"""
import itertools
import os
import pathlib
import random
import subprocess
import sys
import tempfile

import book_cases

ROOT = pathlib.Path(__file__).resolve().parent.parent
sys.path.insert(0, str(ROOT / "tools"))
import book as tool  # noqa: E402

SAMPLES = ROOT / "samples"
SEED = 20261116
BY_CHANCE = 200
PATIENCE = 60  # seconds after which a program that has not ended counts as hanging


# ---- books: each with a label

def stored_books():
    for file in sorted(SAMPLES.glob("*.book")):
        yield f"samples/{file.name}", file.read_bytes()


def limit_books():
    """The books of the cases, each once, whatever is looked up in them."""
    seen = set()
    for label, book, *_ in book_cases.cases():
        if book not in seen:
            seen.add(book)
            yield f"case '{label}' of tests/book_cases.py", book


def benchmark_books(bench):
    with tempfile.TemporaryDirectory() as folder:
        subprocess.run([bench, "--books", folder], check=True, timeout=PATIENCE)
        for file in sorted(pathlib.Path(folder).iterdir()):
            yield f"benchmark '{file.stem}'", file.read_bytes()


def word(chance, order):
    """A word over some names: any of them, or in their order with some left out and some repeated."""
    if order and chance.random() < 0.3:
        return [chance.choice(order) for _ in range(chance.randrange(6))]
    kept = [x for x in order if chance.random() < 0.7]
    return [x for x in kept for _ in range(chance.choice([1, 1, 1, 2]))]


def chance_book(chance):
    """Several parents, each with words over names of its own, some with text; the blocks in any order.

    Where names are left, one more block uses them, but for one book of ten, which has to be refused with 17.
    """
    n = chance.choice([1, 2, 3, 5, 8, 20, 64])
    names = sorted(bytes(chance.choices(b"abXYZ_", k=3)) + b"%d" % i for i in range(n))
    blocks = []
    for parent in chance.sample(range(n), chance.randint(0, min(n, 12))):
        order = chance.sample(range(n), chance.randint(0, min(n, 10)))
        often = chance.choice([0, 0, 0.5, 1])
        for _ in range(chance.randint(1, 6)):
            blocks.append((parent, int(chance.random() < often), word(chance, order)))
    unused = sorted(set(range(n)) - tool.used_in(blocks))
    if unused and chance.random() < 0.9:
        blocks.append((chance.randrange(n), 0, unused))
    chance.shuffle(blocks)
    return book_cases.book([book_cases.name(name) for name in names],
                           [book_cases.block(parent, children, text) for parent, text, children in blocks])


def chance_books():
    chance = random.Random(SEED)
    for i in range(BY_CHANCE):
        book = bytearray(chance_book(chance))
        yield f"book {i} by chance", bytes(book)
        at = chance.randrange(len(book))
        book[at] = chance.choice([0, 1, 2, book[at] + 1 & 255, 64, 255])
        yield f"book {i} by chance, with byte {at} changed", bytes(book)


# ---- the check

def printed(program, book):
    return subprocess.run([program], input=book, capture_output=True, timeout=PATIENCE, check=True).stdout


def difference(ours, theirs):
    """The first line that differs, of both outputs."""
    pairs = itertools.zip_longest(ours.splitlines(True), theirs.splitlines(True), fillvalue=b"")
    number, (mine, other) = next((i, pair) for i, pair in enumerate(pairs, 1) if pair[0] != pair[1])
    return f"line {number}: rescan prints {short(mine)}, dtd prints {short(other)}"


def short(text):
    return repr(text if len(text) <= 200 else text[:200] + b"..")


def main(arguments):
    if len(arguments) != 3:
        sys.exit("usage: python3 tests/rescan_check.py RESCAN DTD BENCH")
    rescan, dtd, bench = map(os.path.abspath, arguments)
    for program, given in zip((rescan, dtd, bench), arguments):
        if not os.access(program, os.X_OK):
            sys.exit(f"rescan_check: {given} is no program that can be run; .ci/run has the commands that build it")
    count = failed = 0
    for label, book in itertools.chain(stored_books(), limit_books(), benchmark_books(bench), chance_books()):
        ours, theirs = printed(rescan, book), printed(dtd, book)
        count += 1
        if ours != theirs:
            failed += 1
            print(f"rescan_check: {label}: {difference(ours, theirs)}")
            print(f"    the book, {len(book)} bytes: {book[:300].hex()}{'..' if len(book) > 300 else ''}")
    if failed:
        sys.exit(f"rescan_check: {failed} of {count} books differ. Where dtd is right, correct docs/src/rescan.rs.")
    print(f"rescan_check: rescan and dtd print the same for {count} books")


if __name__ == "__main__":
    main(sys.argv[1:])
