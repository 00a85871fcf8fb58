#!/usr/bin/env python3
"""The verdict on XML documents: whether they are valid by the models of a book or of a DTD.

  document.py check (--book BOOK | --dtd DTD) FILE..          the verdict on each document
  document.py pairs (--book BOOK | --dtd DTD) FILE -o PAIRS   a document as the byte pairs that the library takes

'-' is standard input, which can be given once, but behind -o standard output.

`check` prints a line for each document, in one of these forms. In brackets there may be a place to look at: the first
element whose name is not among the names, or else the first one, by closing tags, that is not valid alone.

  FILE: valid
  FILE: not valid (line 7: ..)
  FILE: refused 18: .. (line 7: ..)
  FILE: refused 1: .. (more than 30,000 pairs)
  FILE: refused 19: the document opens an element at depth 33

The models and the verdicts are those of the proved library: this tool turns XML into numbers of names and byte pairs,
and decides no more than what is text. It calls the library through the shared object target/libcurlewsong.so, which it
links from target/staticlib/libcurlewsong.a. `bash tools/build.sh library` makes the latter.

The names are those of the book, or all that the DTD declares or uses, in the order of their bytes. An element with
another name gets the number behind the last of them, for which there is no model, so the document is not valid. With 64
names there is no such number, and the document is refused (18). A DTD may have element declarations, comments,
processing instructions and white space; declarations of attributes are skipped.

What is between two tags gives one text pair, or none. Comments and processing instructions do not divide it.

  in an element whose model             a text pair is written for
  allows text                           character data, also white space
  has names and no text, or is missing  characters other than white space; a CDATA section, even an empty one; white
                                        space that is written as a character reference, such as &#32;
  is EMPTY                              anything: also white space, a comment or a processing instruction

Entities are read as by tools/book.py. Attributes, and what a DOCTYPE says of elements, are not judged. Of a document
with more than 30,000 pairs, which is refused (1), 30,001 are kept. A DTD or an XML file has at most 100,000,000 bytes.

Exit status of `check`: 0 where all documents are valid, 1 where one is not or is refused. Of both commands: 2 where a
file cannot be read or written, is no well-formed XML document, or is a book or DTD that is refused, and where anything
else fails. The reason is then on standard error. A message that cannot be written there is dropped, and changes no
status.
"""
import argparse
import collections
import contextlib
import ctypes
import os
import pathlib
import re
import shutil
import stat
import subprocess
import sys

import book
from book import Bad, shown

TARGET = pathlib.Path(__file__).resolve().parent.parent / "target"
ARCHIVE = TARGET / "staticlib" / "libcurlewsong.a"
SHARED = TARGET / "libcurlewsong.so"

LONGEST = 60000  # bytes of a document
LARGEST = 100000000  # bytes of a DTD or of an XML file
ROW = 131  # bytes of a name's row in a table of models
OPEN, CLOSE, TEXT = range(3)

# The refusals that are not a book's.
REASONS = {
    8: "the parent asked for is not below the count of names",
    9: "no block in the book has the parent whose model is wanted from the sample",
    10: "the model record is not a chain over the names, or its text byte does not fit the chain",
    11: "the word has more than 255 names, or a number that is not below the count of names",
    12: "the output buffer is shorter than the text to be written, or has fewer than 65 places for a word",
    13: "the text does not have the form of a declaration",
    14: "a name in the text, the parent's included, is not in the book",
    15: "the model in the text has a name twice",
    18: "the document has an odd length, a pair with a bad kind or number, or pairs that do not form one root element",
    19: "the document opens an element at depth 33",
}

# How much of a declaration, and how many children of an element, a message has at most.
SHOWN_BYTES = 60
SHOWN_WORDS = 12


def refused(number):
    return f"refused {number}: {({**book.REASONS, **REASONS})[number]}"


def cut(text):
    """Bytes of a file for a message."""
    return shown(text if len(text) <= SHOWN_BYTES else text[:SHOWN_BYTES] + b"..")


# The library


class Model(ctypes.Structure):
    _fields_ = [("count", ctypes.c_size_t), ("factor", ctypes.c_uint8 * book.NAMES),
                ("mode", ctypes.c_uint8 * book.NAMES), ("text", ctypes.c_uint8)]


class Verdict(ctypes.Structure):
    _fields_ = [("refusal", ctypes.c_uint8), ("yes", ctypes.c_bool)]


class Written(ctypes.Structure):
    _fields_ = [("refusal", ctypes.c_uint8), ("length", ctypes.c_size_t)]


class Read(ctypes.Structure):
    _fields_ = [("refusal", ctypes.c_uint8), ("parent", ctypes.c_size_t), ("model", Model)]


SIZE, BYTES = ctypes.c_size_t, ctypes.c_void_p
SLICE = [BYTES, SIZE]

# The calls as in include/curlewsong.h: what each answers, and its arguments.
CALLS = {
    "curlewsong_accepts_document": (Verdict, [SIZE, *SLICE, *SLICE]),
    "curlewsong_fill_models": (Written, [*SLICE, *SLICE]),
    "curlewsong_put_model": (ctypes.c_uint8, [SIZE, SIZE, Model, *SLICE]),
    "curlewsong_read_declaration": (Read, [*SLICE, *SLICE]),
}


def link():
    """Makes the shared object of the static library, where there is none yet that is newer."""
    if not ARCHIVE.exists():
        raise OSError("it is missing")
    if SHARED.exists() and SHARED.stat().st_mtime_ns > ARCHIVE.stat().st_mtime_ns:
        return
    if shutil.which("cc") is None:
        raise OSError("a C compiler is needed as cc, and is missing")
    made = SHARED.with_suffix(f".{os.getpid()}")
    done = subprocess.run(["cc", "-shared", "-o", made, "-Wl,--whole-archive", ARCHIVE, "-Wl,--no-whole-archive"],
                          capture_output=True, text=True, errors="replace")
    if done.returncode != 0:
        raise OSError(f"cc cannot link it: {done.stderr.strip()[-200:]}")
    os.replace(made, SHARED)


def library():
    """The library with its calls."""
    try:
        link()
        loaded = ctypes.CDLL(str(SHARED))
        for name, (answer, arguments) in CALLS.items():
            call = getattr(loaded, name)
            call.restype, call.argtypes = answer, arguments
    except (OSError, AttributeError) as e:
        raise Bad(f"the library {ARCHIVE} cannot be used; `bash tools/build.sh library` makes it ({e})")
    return loaded


# Models


class Models(collections.namedtuple("Models", "names table")):
    """The names in order, and the table with a row for each number."""

    def row(self, number):
        return bytes(self.table[ROW * number:ROW * (number + 1)])

    def count(self):
        """How many names the library is told of: one more than there are, if it can be, for all other names."""
        return min(len(self.names) + 1, book.NAMES)


def whole(file):
    """The bytes of a DTD or of an XML file, and what to call it in a message."""
    data, called = book.contents(file, LARGEST + 1)
    if len(data) > LARGEST:
        raise Bad(f"{called}: it has more than {LARGEST:,} bytes, which is more than the tool reads")
    return data, called


def new_table():
    return (ctypes.c_uint8 * (ROW * book.NAMES))()


def models_of_book(calls, file):
    data, called = book.contents(file, book.BOOK_BYTES + 1)
    table = new_table()
    done = calls.curlewsong_fill_models(data, len(data), table, len(table))
    if done.refusal:
        raise Bad(f"{called}: {refused(done.refusal)}; `book.py show` says at which byte")
    return Models(book.read_book(data)[0], table)


# A part of a DTD; of a declaration of attributes, which may have '>' in quotes, the beginning; of a comment all up to
# its first '--'.
PART = re.compile(rb"(?P<element><!ELEMENT[^>]*>)|(?P<attributes><!ATTLIST(?=[ \t\r\n]))|(?P<comment><!--.*?--)"
                  rb"|<\?.*?\?>|[ \t\r\n]+", re.DOTALL)
MARK = re.compile(rb"\"[^\"]*\"|'[^']*'|[>\"']")


def attributes_end(data, at):
    """Where the declaration of attributes that begins here ends, or None."""
    for mark in MARK.finditer(data, at):
        if len(mark.group()) == 1:
            return mark.end() if mark.group() == b">" else None
    return None


def part_end(data, part):
    """Where the part of a DTD ends whose match this is, or None."""
    if part["attributes"]:
        return attributes_end(data, part.start())
    if part["comment"]:
        return part.end() + 1 if data.startswith(b">", part.end()) else None
    return part.end()


def part_fault(part):
    """What to say of a part of a DTD that has no match or no end."""
    if part and part["comment"]:
        return "'--' may be in a comment only in the '-->' that ends it"
    return "neither an element declaration nor a comment"


def declarations_of(data, called, say):
    """The element declarations of a DTD, each with its line."""
    found, at, line, attributes = [], 0, 1, False
    data = data.removeprefix(b"\xef\xbb\xbf")
    while at < len(data):
        part = PART.match(data, at)
        end = part and part_end(data, part)
        if end is None:
            raise Bad(f"{called}, line {line}: {part_fault(part)}: "
                      + cut(data[at:at + SHOWN_BYTES + 1].partition(b"\n")[0]))
        if part["element"]:
            found.append((line, part.group()))
        elif part["attributes"] and not attributes:
            say(f"note: {called}, line {line}: declarations of attributes are skipped")
            attributes = True
        line += data.count(b"\n", at, end) + data.count(b"\r", at, end) - data.count(b"\r\n", at, end)
        at = end
    return found


def names_in(declaration):
    """The names in the text of a declaration. If it has a fault, the library finds it, whatever is found here."""
    words = re.findall(rb"#?[A-Za-z_][\w.-]*", declaration[len("<!ELEMENT"):])
    if b"(" not in declaration:
        words = words[:1]
    return {word for word in set(words) if book.name_fault(word) is None}


def models_of_dtd(calls, file, say):
    data, called = whole(file)
    declarations = declarations_of(data, called, say)
    names = sorted(set().union(*(names_in(text) for _, text in declarations)))
    if not names:
        raise Bad(f"{called}: no element is declared by a name that the rule for names allows")
    if len(names) > book.NAMES:
        raise Bad(f"{called}: {len(names)} names are declared or used, and at most {book.NAMES} can be")
    used = book.book_of([(name, 0, ()) for name in names])
    table = new_table()
    for line, text in declarations:
        read = calls.curlewsong_read_declaration(used, len(used), text, len(text))
        if not read.refusal and table[ROW * read.parent]:
            raise Bad(f"{called}, line {line}: the element {shown(names[read.parent])} is declared twice")
        refusal = read.refusal or calls.curlewsong_put_model(len(names), read.parent, read.model, table, len(table))
        if refusal:
            raise Bad(f"{called}, line {line}: {refused(refusal)}: {cut(text)}")
    return Models(names, table)


# Documents


ATTRIBUTES = "attributes, which are not judged"
DOCTYPE = "a DOCTYPE, of whose declarations only those of entities are used"


def least_text(row):
    """The least content, of those of tools/book.py, that is text in an element whose name has this row."""
    has_model, factors, text = row[:3]
    if has_model and text:
        return book.BLANK
    return book.REMARK if has_model and not factors else book.MARKED


class Document(book.Reader):
    """Walks one document; `pairs` then has its byte pairs, at most one more than the library takes."""

    def __init__(self, file, models):
        super().__init__(file)
        self.numbers = {name: number for number, name in enumerate(models.names)}
        self.least = [least_text(models.row(number)) for number in range(len(models.names))] + [book.MARKED]
        self.open = []  # the numbers of the elements that are open
        self.content = book.NOTHING  # the greatest content since the last tag
        self.pairs = bytearray()
        self.lines = []  # the line of each pair
        self.unlisted = None  # the first element whose name is not among the names, and its line
        self.unused = set()  # what is in the document and plays no part in the verdict
        self.parser.StartDoctypeDeclHandler = lambda *_: self.unused.add(DOCTYPE)

    def where(self):
        return f"{super().where()}, column {self.parser.CurrentColumnNumber + 1}"

    def put(self, kind, number):
        if len(self.pairs) <= LONGEST:
            self.pairs += bytes((kind, number))
            self.lines.append(self.parser.CurrentLineNumber)

    def end_run(self):
        if self.open and self.content >= self.least[self.open[-1]]:
            self.put(TEXT, 0)
        self.content = book.NOTHING

    def start(self, name, attributes):
        self.end_run()
        name = name.encode()
        number = self.numbers.get(name, len(self.numbers))
        if number == len(self.numbers) and self.unlisted is None:
            self.unlisted = name, self.parser.CurrentLineNumber
        if attributes:
            self.unused.add(ATTRIBUTES)
        self.open.append(number)
        self.put(OPEN, number)

    def end(self, _name):
        self.end_run()
        self.put(CLOSE, self.open.pop())

    def holds(self, content):
        self.content = max(self.content, content)


def read_document(file, models, say, told):
    """The document in a file. What plays no part in the verdict is told of once, and then in the set `told`."""
    data, called = whole(file)
    if not book.is_xml(data):
        raise Bad(f"{called}: no XML document: it does not begin with '<'")
    document = Document(called, models).read(data)
    for what in sorted(document.unused - told):
        say(f"note: {called} has {what}")
    told.update(document.unused)
    return document


# Verdicts


def judged(calls, models, table, pairs):
    return calls.curlewsong_accepts_document(models.count(), table, len(table), bytes(pairs), len(pairs))


EMPTY_ROW = bytes([1, 0, 0]) + b"\xff" * book.NAMES + bytes(book.NAMES)


def valid_alone(calls, models, number, content):
    """Whether an element is valid with this content, in which every child is empty and may be.

    The element goes by a number that no child has, since the model of that number is now its own.
    """
    free = set(range(models.count())) - set(content[1::2])
    if not free:
        return True
    other = min(free)
    table = bytearray(EMPTY_ROW * book.NAMES)
    table[ROW * other:ROW * (other + 1)] = models.row(number)
    return judged(calls, models, bytes(table), bytes((OPEN, other)) + content + bytes((CLOSE, other))).yes


def first_fault(calls, models, document):
    """What to say of the first element, by closing tags, that is not valid alone."""
    opened = [(0, bytearray())]  # of the document and each open element: its line, and its content with empty children
    for kind, number, line in zip(document.pairs[::2], document.pairs[1::2], document.lines):
        if kind == TEXT:
            opened[-1][1].extend((TEXT, 0))
        elif kind == OPEN:
            opened[-1][1].extend((OPEN, number, CLOSE, number))
            opened.append((line, bytearray()))
        else:
            line, content = opened.pop()
            if not valid_alone(calls, models, number, content):
                return f"line {line}: {fault(models, number, content)}"
    return None


def fault(models, number, content):
    """What to say of an element that is not valid alone."""
    name = shown(models.names[number])
    has_model, factors, text = models.row(number)[:3]
    if not has_model:
        return f"the element {name} has no model"
    words = [book.PCDATA if kind == TEXT else models.names[child]
             for kind, child in zip(content[::2], content[1::2]) if kind != CLOSE]
    if factors or text:
        return f"the model of {name} does not allow what is in it: {listed(words)}"
    children = [word for word in words if word != book.PCDATA]
    if children:
        return f"the element {name} is EMPTY and has elements in it: {listed(children)}"
    return (f"the element {name} is EMPTY and has text, white space, a comment, a processing instruction or "
            "an entity in it")


def listed(words):
    """Words for a message."""
    told = " ".join(word.decode() for word in words[:SHOWN_WORDS]) or "nothing"
    return told + (" .." if len(words) > SHOWN_WORDS else "")


def unknown(document):
    """What to say of the first element whose name is not among the names, if there is one."""
    if document.unlisted is None:
        return None
    name, line = document.unlisted
    return f"line {line}: the element {cut(name)} is not among the names"


def verdict(calls, models, document):
    """What `check` prints of a document, and whether it is valid."""
    answer = judged(calls, models, models.table, document.pairs)
    if answer.yes and not answer.refusal:
        return "valid", True
    if answer.refusal:
        said, more = refused(answer.refusal), refusal_place(answer.refusal, document)
    else:
        said, more = "not valid", unknown(document) or first_fault(calls, models, document)
    return said + (f" ({more})" if more else ""), False


def refusal_place(refusal, document):
    """What to say of a document with this refusal, beside the reason, if there is something."""
    if refusal == 1:
        return f"more than {LONGEST // 2:,} pairs"
    return unknown(document) if refusal == 18 else None


# Commands


def check(calls, models, files, say):
    """The exit status, and the lines for these documents. A file that is no document has a message in place of one."""
    status, lines, told = 0, [], set()
    for file in files:
        try:
            document = read_document(file, models, say, told)
        except Bad as e:
            say(e)
            status = 2
            continue
        said, valid = verdict(calls, models, document)
        lines.append(book.printable(f"{document.file}: {said}") + "\n")
        status = max(status, 0 if valid else 1)
    return status, "".join(lines)


def pairs(models, file, say):
    """The byte pairs of a document."""
    document = read_document(file, models, say, set())
    if unknown(document):
        say(f"note: {document.file}, {unknown(document)}; it has the number {len(models.names)}")
    if len(document.pairs) > LONGEST:
        say(f"note: {document.file}: only the first {LONGEST // 2 + 1:,} pairs are written; they are refused (1)")
    return document.pairs


def write_new(file, data):
    """Writes a file beside the old one, with its mode, and puts it into its place. A device or a pipe is written to."""
    if os.path.exists(file) and not os.path.isfile(file):
        book.write_file(file, file, data)
        return
    place = os.path.realpath(file)
    made = f"{place}.{os.getpid()}"
    try:
        with open(made, "wb") as out:
            if os.path.exists(place):
                os.fchmod(out.fileno(), stat.S_IMODE(os.stat(place).st_mode))
            out.write(data)
        os.replace(made, place)
    except OSError as e:
        with contextlib.suppress(OSError):
            os.remove(made)
        raise Bad(f"{file}: {e.strerror}")


def parsed(arguments):
    parser = argparse.ArgumentParser(
        prog="document.py", description=__doc__, formatter_class=argparse.RawDescriptionHelpFormatter)
    commands = parser.add_subparsers(dest="command", required=True)
    checker = commands.add_parser("check", help="the verdict on each document")
    checker.add_argument("files", nargs="+", metavar="FILE")
    pairer = commands.add_parser("pairs", help="a document as byte pairs")
    pairer.add_argument("file", metavar="FILE")
    pairer.add_argument("-o", dest="out", required=True, metavar="PAIRS", help="the file of the pairs")
    for command in (checker, pairer):
        source = command.add_mutually_exclusive_group(required=True)
        source.add_argument("--book", help="a book, from whose blocks the models are inferred")
        source.add_argument("--dtd", help="a DTD, whose declarations are the models")
    return parser.parse_args(arguments)


def check_names(chosen):
    """Refuses standard input that would be read twice, and a file without a name for the pairs."""
    read = [chosen.book, chosen.dtd, *(chosen.files if chosen.command == "check" else [chosen.file])]
    if read.count("-") > 1:
        raise Bad("'-' is given more than once, and standard input can be read only once")
    if chosen.command == "pairs" and not chosen.out:
        raise Bad("the name behind -o is empty")


def run(chosen, say):
    """Does what was chosen; the exit status."""
    check_names(chosen)
    calls = library()
    models = models_of_book(calls, chosen.book) if chosen.dtd is None else models_of_dtd(calls, chosen.dtd, say)
    if chosen.command == "check":
        status, lines = check(calls, models, chosen.files, say)
        book.write_out(lines.encode())
        return status
    found = pairs(models, chosen.file, say)
    if chosen.out == "-":
        book.write_out(found)
    else:
        write_new(chosen.out, found)
    return 0


def main(arguments=None):
    say = book.say_as("document.py")
    try:
        return run(parsed(arguments), say)
    except Bad as e:
        say(e)
    except BrokenPipeError:
        pass
    except Exception as e:
        say(f"the tool has failed, by an error of its own: {e!r}")
    return 2


if __name__ == "__main__":
    sys.exit(main())
