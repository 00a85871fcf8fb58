#!/usr/bin/env python3
"""The program on the longest books, on names that no block uses, on slow inputs and on inputs that cannot be read.

Usage: python3 tests/program_check.py target/bin/dtd

Each case gives the program a standard input and compares its standard output, its standard error and its status with
what is written down here from papers 01 and 02. Where a read fails, it must print nothing and say so on standard error.
Each difference is printed; the status is 1 if there is one, else 0.
"""
import contextlib
import os
import subprocess
import sys
import tempfile
import threading
import time

LONGEST = 60000  # the most bytes that a book has
PATIENCE = 60  # seconds after which a program that has not ended counts as hanging
UNREAD = b"dtd: standard input could not be read: nothing was printed. Give the book as a file: dtd < BOOK\n"


# ---- books

def count(n):
    """A two-byte count, the low byte first."""
    return bytes([n % 256, n // 256])


def block(parent, children, text=0):
    return bytes([parent, text, len(children)]) + bytes(children)


def book(names, blocks):
    head = count(len(names)) + b"".join(bytes([len(n)]) + n for n in names)
    return head + count(len(blocks)) + b"".join(blocks)


# Paper 01, "The program".
EXAMPLE = book(
    [b"contribution", b"entry", b"leaver", b"member", b"reason", b"total"],
    [block(1, [3, 0, 5]), block(1, [3, 2, 4]), block(1, [3, 0, 4])],
)
EXAMPLE_PRINTED = b"<!ELEMENT entry (member,(contribution|leaver),(reason|total))>\n"


def book_of(size, names=(b"a", b"b")):
    """A book of so many bytes: blocks of a with 255 times b, and a last block of b that is filled with a."""
    full, left = divmod(size - len(book(names, [])), len(block(0, [1] * 255)))
    whole = book(names, [block(0, [1] * 255)] * full + [block(1, [0] * (left - len(block(1, []))))])
    assert len(whole) == size
    return whole


# As for the sample aa of paper 01: each model is one loop group of one name on a level that is not skipped.
FULL_PRINTED = b"<!ELEMENT a (b+)>\n<!ELEMENT b (a+)>\n"

# Paper 02, request U5: text and children, text alone, and no text, each also by a block that shows less.
TEXTS = book(
    [b"a", b"b", b"c"],
    [block(0, [2]), block(1, [], 1), block(0, [1, 1], 1), block(1, []), block(2, []), block(0, [])],
)
TEXTS_PRINTED = b"<!ELEMENT a (#PCDATA|b|c)*>\n<!ELEMENT b (#PCDATA)>\n<!ELEMENT c EMPTY>\n"

# Paper 02, request U6: books of 64 names. One block uses all of them, or all but one.
MANY = [b"n%02d" % i for i in range(64)]
ALL_USED = book(MANY, [block(0, range(1, 64))])
ALL_USED_PRINTED = b"<!ELEMENT n00 (" + b",".join(MANY[1:]) + b")>\n"
LAST_UNUSED = book(MANY, [block(0, range(1, 63))])
FIRST_UNUSED = book(MANY, [block(1, range(2, 64))])


# ---- inputs: each is a context that gives the file descriptor to read from

class NotHere(Exception):
    """An input that this machine cannot make."""


@contextlib.contextmanager
def file_of(data):
    with tempfile.TemporaryFile() as file:
        file.write(data)
        file.seek(0)
        yield file.fileno()


def write_pieces(end, data, size, pause):
    """Writes the data in pieces of a size, with a pause after each; stops where nobody reads any more."""
    with contextlib.suppress(BrokenPipeError), os.fdopen(end, "wb", buffering=0) as out:
        for start in range(0, len(data), size):
            out.write(data[start:start + size])
            time.sleep(pause)


@contextlib.contextmanager
def pipe_of(data, size, pause):
    """A pipe into which the data is written in pieces while the program reads."""
    reading, writing = os.pipe()
    writer = threading.Thread(target=write_pieces, args=(writing, data, size, pause))
    writer.start()
    try:
        yield reading
    finally:
        os.close(reading)
        writer.join()


@contextlib.contextmanager
def non_blocking(data, ended):
    """A non-blocking pipe with the data in it; it has ended or is still open for writing."""
    reading, writing = os.pipe()
    os.set_blocking(reading, False)
    os.write(writing, data)
    if ended:
        os.close(writing)
    try:
        yield reading
    finally:
        os.close(reading)
        if not ended:
            os.close(writing)


@contextlib.contextmanager
def directory():
    reading = os.open("/", os.O_RDONLY)
    try:
        yield reading
    finally:
        os.close(reading)


@contextlib.contextmanager
def lost_terminal():
    """One end of a terminal whose other end is closed: a read of it fails (EIO)."""
    try:
        reading, other = os.openpty()
    except OSError as error:
        raise NotHere(f"no terminal can be made here: {error}") from error
    os.close(other)
    try:
        yield reading
    finally:
        os.close(reading)


@contextlib.contextmanager
def closed():
    yield None


# ---- the cases: what it is, the input, what is printed, what is said on standard error

def unused_cases():
    """Names that no block uses, and books on the other side of that border."""
    three = book_of(LONGEST, [b"a", b"b", b"c"])
    with_c = b"<!ELEMENT a (b+)>\n<!ELEMENT b (a+,c)>\n"
    return [
        ("a book without blocks", file_of(book([b"a"], [])), b"refused 17\n", b""),
        ("a book of 64 names without blocks", file_of(book(MANY, [])), b"refused 17\n", b""),
        ("a book without blocks and one byte more", file_of(book([b"a"], []) + b"\0"), b"refused 7\n", b""),
        ("64 names that are all used", file_of(ALL_USED), ALL_USED_PRINTED, b""),
        ("64 names, the last one unused", file_of(LAST_UNUSED), b"refused 17\n", b""),
        ("64 names, the first one unused", file_of(FIRST_UNUSED), b"refused 17\n", b""),
        ("64 names, the first one unused, and one byte more", file_of(FIRST_UNUSED + b"\0"), b"refused 7\n", b""),
        ("an unused name and a text byte of 2", file_of(book([b"a", b"b"], [block(0, [], 2)])), b"refused 16\n", b""),
        ("an unused name and a child that is no number", file_of(book([b"a", b"b"], [block(0, [2])])),
         b"refused 6\n", b""),
        ("an unused name in 60,000 bytes", file_of(three), b"refused 17\n", b""),
        ("the same name used in the last of 60,000 bytes", file_of(three[:-1] + b"\2"), with_c, b""),
    ]


def cases():
    full = book_of(LONGEST)
    return [
        ("a good book of 60,000 bytes", file_of(full), FULL_PRINTED, b""),
        ("a good book of 60,000 bytes and one byte more", file_of(full + b"\0"), b"refused 1\n", b""),
        ("a book of 60,001 bytes that is good otherwise", file_of(book_of(LONGEST + 1)), b"refused 1\n", b""),
        ("60,000 bytes that are no book", file_of(b"\xff" * LONGEST), b"refused 3\n", b""),
        ("60,001 bytes that are no book", file_of(b"\xff" * (LONGEST + 1)), b"refused 1\n", b""),
        ("a file of 1,000,000 bytes", file_of(full + bytes(1000000 - LONGEST)), b"refused 1\n", b""),
        ("1,000,000 bytes through a pipe", pipe_of(full + bytes(1000000 - LONGEST), 65536, 0), b"refused 1\n", b""),
        ("an input with no byte", file_of(b""), b"refused 2\n", b""),
        ("a book with text", file_of(TEXTS), TEXTS_PRINTED, b""),
        ("a text byte of 2", file_of(book([b"a"], [block(0, [], 2)])), b"refused 16\n", b""),
        ("a text byte of 255 in the last block", file_of(TEXTS[:-2] + b"\xff\0"), b"refused 16\n", b""),
        ("a text byte of 2 and nothing behind it", file_of(book([b"a"], [block(0, [], 2)])[:-1]), b"refused 16\n", b""),
        *unused_cases(),
        ("a book of 60,000 bytes in pieces of 1,000", pipe_of(full, 1000, 0.003), FULL_PRINTED, b""),
        ("a book that comes byte by byte", pipe_of(EXAMPLE, 1, 0.005), EXAMPLE_PRINTED, b""),
        ("a non-blocking pipe with a book in it and its end", non_blocking(EXAMPLE, ended=True), EXAMPLE_PRINTED, b""),
        ("a non-blocking pipe with nothing in it yet", non_blocking(b"", ended=False), b"", UNREAD),
        ("a non-blocking pipe with half a book in it", non_blocking(EXAMPLE[:30], ended=False), b"", UNREAD),
        ("a non-blocking pipe with a book in it and no end yet", non_blocking(EXAMPLE, ended=False), b"", UNREAD),
        ("a closed standard input", closed(), b"", UNREAD),
        ("a directory", directory(), b"", UNREAD),
        ("a terminal that is gone", lost_terminal(), b"", UNREAD),
    ]


# ---- the check

def run(program, reading):
    """The program's standard output, standard error and status; without a descriptor its standard input is closed."""
    close = (lambda: os.close(0)) if reading is None else None
    ended = subprocess.run([program], stdin=reading, capture_output=True, timeout=PATIENCE, preexec_fn=close)
    return ended.stdout, ended.stderr, ended.returncode


def short(text):
    return repr(text if len(text) <= 200 else text[:200] + b"..")


def differences(program, given, printed, said):
    """How the program's behaviour on the input differs from what is expected, a line for each difference."""
    try:
        with given as reading:
            found = run(program, reading)
    except subprocess.TimeoutExpired:
        return [f"it has not ended after {PATIENCE} s"]
    except NotHere as why:
        print(f"program_check: a case is skipped: {why}")
        return []
    wanted = (printed, said, 0)
    names = ("standard output", "standard error")
    lines = [f"{n}: expected {short(w)}, found {short(f)}" for n, w, f in zip(names, wanted, found) if w != f]
    if found[2] != 0:
        lines.append(f"status: expected 0, found {found[2]}")
    return lines


def main():
    if len(sys.argv) != 2:
        sys.exit("usage: python3 tests/program_check.py PROGRAM")
    program = os.path.abspath(sys.argv[1])
    if not os.access(program, os.X_OK):
        sys.exit(f"program_check: {sys.argv[1]} is no program that can be run")
    failed = 0
    all_cases = cases()
    for label, given, printed, said in all_cases:
        lines = differences(program, given, printed, said)
        for line in lines:
            print(f"program_check: {label}: {line}")
        failed += bool(lines)
    if failed:
        sys.exit(f"program_check: {failed} of {len(all_cases)} cases failed")
    print(f"program_check: {len(all_cases)} cases passed")


if __name__ == "__main__":
    main()
