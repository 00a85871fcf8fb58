#!/usr/bin/env python3
"""The cases of the program test_book: books on both sides of each limit, with what is due of each.

Without an argument it writes crates/test_book/stdin and stdout; with --check it says whether they are as written here.
"""
import pathlib
import sys

FOLDER = pathlib.Path(__file__).resolve().parent.parent / "crates" / "test_book"


def name(text, size=None):
    """A length byte and a name's bytes; `size` puts another length byte in front."""
    return bytes([len(text) if size is None else size]) + text


def count(n):
    return bytes([n % 256, n // 256])


def block(parent, children, text=0):
    return bytes([parent, text, len(children)]) + bytes(children)


def book(names, blocks, n=None, m=None):
    """A book of names and blocks; n and m put other counts in front of them."""
    head = count(len(names) if n is None else n) + b"".join(names)
    return head + count(len(blocks) if m is None else m) + b"".join(blocks)


def block_of(numbers):
    """A block that uses these names: the first as its parent, the others as its children."""
    parent, *children = numbers
    return block(parent, children)


def one_block(names):
    """A book with one block, which uses all of its names."""
    return book(names, [block_of(range(len(names)))])


def letters(n):
    """So many names of two letters."""
    return [name(bytes([65 + i // 26, 97 + i % 26])) for i in range(n)]


EXAMPLE_NAMES = [b"contribution", b"entry", b"leaver", b"member", b"reason", b"total"]
EXAMPLE = book([name(x) for x in EXAMPLE_NAMES], [block(1, [3, 0, 5]), block(1, [3, 2, 4]), block(1, [3, 0, 4])])
EXAMPLE_BLOCKS = " 1:0:3" * 3
A = [name(b"a")]
AB = [name(b"a"), name(b"b")]
ABC = [name(b"a"), name(b"b"), name(b"c")]


def long_book(size):
    """One name, 232 blocks of 255 children, and one more block that fills the book."""
    blocks = [block(0, [0] * 255)] * 232
    rest = size - len(book(A, blocks)) - len(block(0, []))
    return book(A, blocks + [block(0, [0] * rest)])


def example_cases():
    """The example of paper 01: its names looked up, cut at each byte (2), and with a byte left over (7)."""
    yield "example", EXAMPLE, b"leaver", "0 6 3 2" + EXAMPLE_BLOCKS
    for i, text in enumerate(EXAMPLE_NAMES):
        yield f"name {i}", EXAMPLE, text, f"0 6 3 {i}" + EXAMPLE_BLOCKS
    for text in (b"", b"a", b"contributio", b"contributions", b"lever", b"membes", b"totals", b"zzz"):
        yield f"no name '{text.decode()}'", EXAMPLE, text, "0 6 3 -" + EXAMPLE_BLOCKS
    for k in range(len(EXAMPLE)):
        yield f"cut at {k}", EXAMPLE[:k], b"", "2 0 0"
    yield "one byte left over", EXAMPLE + b"\0", b"", "7 0 0"


def length_cases():
    """1: the length of the whole book."""
    yield "60,000 bytes", long_book(60000), b"a", "0 1 233 0" + " 0:0:255" * 232 + " 0:0:135"
    yield "60,001 bytes", long_book(60001), b"", "1 0 0"
    yield "60,001 bytes of nothing", bytes(60001), b"", "1 0 0"


def count_cases():
    """3, seen before anything behind it is missing."""
    yield "N = 0", count(0), b"", "3 0 0"
    yield "N = 1", one_block(A), b"a", "0 1 1 0 0:0:0"
    yield "N = 64", one_block(letters(64)), b"Cl", "0 64 1 63 0:0:63"
    yield "N = 65", one_block(letters(65)), b"", "3 0 0"
    yield "N = 65, nothing behind", count(65), b"", "3 0 0"
    yield "N = 256", count(256), b"", "3 0 0"
    yield "N = 257", count(257), b"", "3 0 0"
    yield "N = 65535", count(65535), b"", "3 0 0"


def name_cases():
    """4: the length before its bytes are missing, the bytes after. 5, after 4."""
    yield "length 0", count(1) + name(b"", 0), b"", "4 0 0"
    yield "length 1", one_block([name(b"_")]), b"_", "0 1 1 0 0:0:0"
    yield "length 32", one_block([name(b"a" * 32)]), b"a" * 32, "0 1 1 0 0:0:0"
    yield "length 33", one_block([name(b"a" * 33)]), b"", "4 0 0"
    yield "length 33, nothing behind", count(1) + name(b"", 33), b"", "4 0 0"
    yield "length 255, nothing behind", count(1) + name(b"", 255), b"", "4 0 0"
    yield "bad first byte, last byte missing", count(1) + name(b"9", 2), b"", "2 0 0"
    for b in range(256):
        first = chr(b) in "ABCDEFGHIJKLMNOPQRSTUVWXYZabcdefghijklmnopqrstuvwxyz_"
        later = first or chr(b) in "0123456789-."
        yield f"first byte {b}", one_block([name(bytes([b]))]), b"", "0 1 1 - 0:0:0" if first else "4 0 0"
        yield f"later byte {b}", one_block([name(bytes([97, b]))]), b"", "0 1 1 - 0:0:0" if later else "4 0 0"
    yield "equal names", one_block([name(b"ab"), name(b"ab")]), b"", "5 0 0"
    yield "falling names", one_block([name(b"b"), name(b"a")]), b"", "5 0 0"
    yield "prefix first", one_block([name(b"a"), name(b"ab")]), b"ab", "0 2 1 1 0:0:1"
    yield "prefix second", one_block([name(b"ab"), name(b"a")]), b"", "5 0 0"
    yield "case counts", one_block([name(b"B"), name(b"a")]), b"a", "0 2 1 1 0:0:1"
    yield "later byte decides", one_block([name(b"a-"), name(b"a.")]), b"a.", "0 2 1 1 0:0:1"
    yield "falling and bad", one_block([name(b"b"), name(b"a!")]), b"", "4 0 0"
    yield "third below the second", one_block([name(b"a"), name(b"c"), name(b"b")]), b"", "5 0 0"


def number_cases():
    """6: parents, then all children of a block at once."""
    yield "M = 65535", book(A, [], m=65535), b"", "2 0 0"
    yield "M = 65535, bad parent", book(A, [block(1, [])], m=65535), b"", "6 0 0"
    yield "no child", book(A, [block(0, [])]), b"", "0 1 1 - 0:0:0"
    yield "255 children", book(A, [block(0, [0] * 255)]), b"", "0 1 1 - 0:0:255"
    yield "parent N - 1", book(AB, [block(1, [0])]), b"", "0 2 1 - 1:0:1"
    yield "parent N", book(AB, [block(2, [0, 1])]), b"", "6 0 0"
    yield "parent N, nothing behind", book(AB, [b"\2"]), b"", "6 0 0"
    yield "child N - 1", book(AB, [block(0, [1])]), b"", "0 2 1 - 0:0:1"
    yield "child N", book(AB, [block(0, [1, 2])]), b"", "6 0 0"
    yield "last child N", book(AB, [block(0, [1] * 254 + [2])]), b"", "6 0 0"
    yield "bad child, last child missing", book(AB, [bytes([0, 0, 2, 9])]), b"", "2 0 0"
    yield "bad child in the second block", book(AB, [block(0, [1]), block(1, [9])]), b"", "6 0 0"
    yield "bad child and bytes left over", book(AB, [block(0, [1, 2])]) + b"\0", b"", "6 0 0"


def text_cases():
    """16, behind the parent and before the child count."""
    yield "text byte missing", book(AB, [b"\0"]), b"", "2 0 0"
    yield "text byte 0", book(AB, [block(0, [1], 0)]), b"", "0 2 1 - 0:0:1"
    yield "text byte 1", book(AB, [block(0, [1], 1)]), b"", "0 2 1 - 0:1:1"
    yield "text byte 2", book(AB, [block(0, [1], 2)]), b"", "16 0 0"
    yield "text byte 255", book(AB, [block(0, [1], 255)]), b"", "16 0 0"
    yield "text byte 1, count missing", book(AB, [b"\0\1"]), b"", "2 0 0"
    yield "text byte 2, count missing", book(AB, [b"\0\2"]), b"", "16 0 0"
    yield "text byte 1, child missing", book(AB, [b"\0\1\1"]), b"", "2 0 0"
    yield "text byte 2, child missing", book(AB, [b"\0\2\1"]), b"", "16 0 0"
    yield "parent N, text byte 2", book(AB, [block(2, [0, 1], 2)]), b"", "6 0 0"
    yield "text byte 1, bad child", book(AB, [block(0, [1, 2], 1)]), b"", "6 0 0"
    yield "text byte 2, bad child", book(AB, [block(0, [1, 2], 2)]), b"", "16 0 0"
    yield "text without children", book(AB, [block(0, []), block(1, [], 1)]), b"", "0 2 2 - 0:0:0 1:1:0"
    yield "text byte 2 in the second block", book(AB, [block(0, [1]), block(1, [0], 2)]), b"", "16 0 0"
    yield "bad child, then text byte 2", book(AB, [block(0, [1, 2]), block(1, [], 2)]), b"", "6 0 0"
    yield "text byte 2 and bytes left over", book(AB, [block(0, [1], 2)]) + b"\0", b"", "16 0 0"


def unused_cases():
    """17: a name that no block uses, and the same name used in one way only."""
    yield "M = 0", book(A, []), b"", "17 0 0"
    yield "M = 0, N = 64", book(letters(64), []), b"", "17 0 0"
    yield "one name of 64 used", book(letters(64), [block(63, [63])]), b"", "17 0 0"
    yield "two names of 64 unused", book(letters(64), [block_of(sorted(set(range(64)) - {5, 40}))]), b"", "17 0 0"
    for n, numbers in ((3, (0, 1, 2)), (64, (0, 1, 31, 32, 62, 63))):
        names = letters(n)
        for i in numbers:
            others = [x for x in range(n) if x != i]
            first = others[0]
            head = f"0 {n} 2 - {first}:0:{n - 2}"
            yield f"name {i} of {n} unused", book(names, [block_of(others)]), b"", "17 0 0"
            yield (f"name {i} of {n} only a parent", book(names, [block_of(others), block(i, [])]), b"",
                   f"{head} {i}:0:0")
            yield (f"name {i} of {n} only a child", book(names, [block_of(others), block(first, [i])]), b"",
                   f"{head} {first}:0:1")


def unused_place_cases():
    """17: where in the blocks a name is used, or that it is in none of them."""
    ab, filled = block(0, [1]), [1] * 254
    yield "text alone in each block", book(AB, [block(0, [], 1), block(1, [], 1)]), b"", "0 2 2 - 0:1:0 1:1:0"
    yield "used only in the first block", book(ABC, [block(0, [2])] + [ab] * 3), b"", "0 3 4 -" + " 0:0:1" * 4
    yield "used only in the last block", book(ABC, [ab] * 3 + [block(0, [2])]), b"", "0 3 4 -" + " 0:0:1" * 4
    yield "parent of the first block alone", book(ABC, [block(2, [])] + [ab] * 2), b"", "0 3 3 - 2:0:0" + " 0:0:1" * 2
    yield "first of 255 children", book(ABC, [block(0, [2] + filled)]), b"", "0 3 1 - 0:0:255"
    yield "last of 255 children", book(ABC, [block(0, filled + [2])]), b"", "0 3 1 - 0:0:255"
    yield "none of 255 children", book(ABC, [block(0, filled + [1])]), b"", "17 0 0"
    yield "none of many blocks", book(ABC, [ab] * 300), b"", "17 0 0"
    yield "a name that is its own only child", book(A, [block(0, [0])]), b"", "0 1 1 - 0:0:1"


def unused_order_cases():
    """17, after 2, 6, 16 and 7."""
    yield "unused, block missing", book(ABC, [block(0, [1])], m=2), b"", "2 0 0"
    yield "unused, bad child", book(ABC, [block(0, [1, 3])]), b"", "6 0 0"
    yield "unused, text byte 2", book(ABC, [block(0, [1], 2)]), b"", "16 0 0"
    yield "unused, bytes left over", book(ABC, [block(0, [1])]) + b"\0", b"", "7 0 0"
    yield "left over after M = 0", book(A, []) + b"\0", b"", "7 0 0"
    yield "a block left over that uses the name", book(AB, [block(0, [0])]) + block(1, []), b"", "7 0 0"


def cases():
    """Each case: a label, the book, a text to look up, and the line that is due behind the label."""
    for part in (example_cases, length_cases, count_cases, name_cases, number_cases, text_cases, unused_cases,
                 unused_place_cases, unused_order_cases):
        yield from part()


def size(text):
    return len(text).to_bytes(3, "little")


def written():
    fed, due = b"", ""
    for label, bytes_, text, line in cases():
        for part in (label.encode(), bytes_, text):
            fed += size(part) + part
        due += f"{label}: {line}\n"
    return {"stdin": fed, "stdout": due.encode()}


def main():
    files = written()
    if sys.argv[1:] == ["--check"]:
        stale = [f for f, want in files.items() if not (FOLDER / f).is_file() or (FOLDER / f).read_bytes() != want]
        for f in stale:
            print(f"crates/test_book/{f} is not what tests/book_cases.py writes")
        sys.exit(1 if stale else 0)
    for f, want in files.items():
        (FOLDER / f).write_bytes(want)
    print(f"{len(list(cases()))} cases, {len(files['stdin'])} bytes fed")


if __name__ == "__main__":
    main()
