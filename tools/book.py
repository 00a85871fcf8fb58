#!/usr/bin/env python3
"""Sample books from feeds, and books as lines of text.

  book.py make [--distinct] [-o BOOK] FILE..    a book from XML documents or from lines
  book.py show [BOOK]                           a book as lines

'-' is standard input, but behind -o standard output, as where -o is not given.

A file that begins with '<' is an XML document; any other file holds lines:

  entry: member contribution total    a block: a parent and its children in order
  note: #PCDATA em ref                a block with text: #PCDATA comes first behind the colon
  total: #PCDATA                      a block with text and without children
  batch-end:                          a block without text and children
  # words                             a comment; empty lines count for nothing

A line that begins with the word #PCDATA is no comment, and is refused. A line ends in LF, CR LF or CR. The names of the
book are those in its blocks. A book with a further name is refused by every call (17); `show` names the first one.

Of an XML document each element is a block: its name, whether it has text, and the names of its child elements in order.
It has text where character data other than white space is directly in it. White space is text only where no block of
that name has a child, in all the files: a DTD says EMPTY of an element without text and children, and EMPTY allows not
even a space, but white space around children is always allowed. A CDATA section, even an empty one, and white space
that is written as a character reference, such as &#32;, are text too: they are allowed only where text is. An entity
counts as its replacement text does in its place, in which a character reference is left only if it was declared as
&#38;#32;. So white space that comes through another entity is white space.

Attributes, comments, processing instructions and the document type declaration have no place in a book and are left
out. `make` says so where a DTD made from the book then does not allow them. It also says where text is in fewer than
half of the blocks of a name with children, since it may be a slip. Names are taken as they are spelled in the
document, so a name with a namespace prefix breaks the rule for names. Blocks come in the order of their opening tags,
one for each element; --distinct keeps equal blocks once, which changes no model.

Exit status: 0, or 1 where a file or a book is bad; the reason is then on standard error and no book is written.
"""
import argparse
import collections
import re
import sys
import xml.parsers.expat

BOOK_BYTES = 60000
NAMES = 64
NAME_BYTES = 32
CHILDREN = 255

START = frozenset(b"ABCDEFGHIJKLMNOPQRSTUVWXYZabcdefghijklmnopqrstuvwxyz_")
LATER = START | frozenset(b"0123456789-.")

# The first bytes of a file in UTF-16.
UTF_16 = (b"\xfe\xff", b"\xff\xfe")

REASONS = {
    1: "the book has more than 60,000 bytes",
    2: "the book ends before one of its fields is complete",
    3: "the count of names is 0 or above 64",
    4: "a name in the book has a length other than 1 to 32, or a byte that breaks the rule for names",
    5: "a name in the book is not above the name before it",
    6: "a parent or child number in the book is not below the count of names",
    7: "the book has bytes left over after its last block",
    16: "a text byte in the book is above 1",
    17: "a name in the book is neither a parent nor a child in any block",
}

# What to do about a refusal, where more is to be said than its reason.
REMEDIES = {
    16: "; a book from before there were text bytes has to be made again",
    17: "; remove each such name, or add a block that uses it",
}

# The word that says in a line, as in a declaration, that there is text.
PCDATA = b"#PCDATA"


class Bad(Exception):
    """A file that no book can be made of; its text is the message."""


class Refused(Exception):
    """A refused book: its number, and the place in the book with what is there."""

    def __init__(self, number, place, detail):
        remedy = REMEDIES.get(number, "")
        super().__init__(f"refused {number}: {REASONS[number]} ({detail}, byte {place}){remedy}")
        self.number = number


def printable(message):
    """The message with escapes for what a terminal would obey and not show."""
    return "".join(c if c.isprintable() else c.encode("unicode_escape").decode() for c in message)


def say_as(tool):
    """A function that prints a message of this tool on standard error, or drops it where it cannot be written."""
    def say(line):
        # Where standard error is closed, `print` would take standard output in its place.
        if sys.stderr is None:
            return
        try:
            print(printable(f"{tool}: {line}"), file=sys.stderr, flush=True)
        except OSError:
            # Python writes what is left over once more at its end, and changes the exit status where that fails too.
            sys.stderr = None
    return say


# Names


def shown(name):
    """A name for a message."""
    return "'" + name.decode("utf-8", "backslashreplace") + "'"


def name_fault(name):
    """Why the rule for names refuses this one, or None."""
    if not name:
        return "is empty"
    for at, byte in enumerate(name):
        if byte not in (LATER if at else START):
            what = f"'{chr(byte)}'" if 32 < byte < 127 else f"byte {byte}"
            prefix = "; a book has no namespace prefixes" if byte == ord(":") else ""
            if at == 0 and byte in LATER:
                return f"starts with {what}; a name starts with A-Z, a-z or _"
            return f"holds {what}; a name starts with A-Z, a-z or _ and goes on with these, 0-9, - or .{prefix}"
    if len(name) > NAME_BYTES:
        return f"has {len(name)} bytes; a name has at most {NAME_BYTES}"
    return None


def checked(name, where, advice=""):
    fault = name_fault(name)
    if fault:
        raise Bad(f"{where}: the name {shown(name)} {fault}{advice}")
    return name


# What a file gives are blocks (parent, content, children). Content is the greatest of these that is in the element:
# comments or processing instructions; references to entities; white space as it is; CDATA sections, and white space
# written as character references; text. A book is made of blocks (parent, text, children).
NOTHING, REMARK, REFERENCE, BLANK, MARKED, TEXT = range(6)


def checked_block(where, parent, content, children):
    if len(children) > CHILDREN:
        raise Bad(f"{where}: {shown(parent)} has {len(children)} children; a block has at most {CHILDREN}")
    return parent, content, tuple(children)


def with_children(blocks):
    """The names of the elements that have a child in some block."""
    return {parent for parent, _, children in blocks if children}


def with_text(blocks, holders):
    """The blocks with a text byte in place of their content; `holders` are the names of elements with children."""
    def text(parent, content):
        return int(content > BLANK or content > REMARK and parent not in holders)
    return [(parent, text(parent, content), children) for parent, content, children in blocks]


def size_of(blocks):
    return sum(3 + len(children) for _, _, children in blocks)


def used_in(blocks):
    """The names, or the numbers, that are a parent or a child in some block."""
    return {one for parent, _, children in blocks for one in (parent, *children)}


def book_of(blocks, distinct=False):
    """The bytes of the book with these blocks, one at least, each a parent, a text byte and children."""
    if distinct:
        blocks = list(dict.fromkeys(blocks))
    names = sorted(used_in(blocks))
    if len(names) > NAMES:
        raise Bad(f"there are {len(names)} names, and a book has at most {NAMES}; the names after these: "
                  + ", ".join(shown(n) for n in names[NAMES:NAMES + 5]) + (", .." if len(names) > NAMES + 5 else ""))
    number = {name: i for i, name in enumerate(names)}
    out = bytearray(len(names).to_bytes(2, "little"))
    for name in names:
        out += bytes([len(name)]) + name
    head = len(out) + 2
    if head + size_of(blocks) > BOOK_BYTES:
        raise Bad(f"the book would have {head + size_of(blocks):,} bytes, and at most {BOOK_BYTES:,} fit"
                  + ("" if distinct else "; with --distinct, which keeps equal blocks once, it would have "
                     f"{head + size_of(set(blocks)):,}"))
    out += len(blocks).to_bytes(2, "little")
    for parent, text, children in blocks:
        out += bytes([number[parent], text, len(children)])
        out += bytes(number[child] for child in children)
    return bytes(out)


# Lines


WITH_TEXT = "a block with text is written as 'note: #PCDATA em ref'"


def advice_on(word):
    """What to say of a word that is no name, where it looks like text or like a comment."""
    if PCDATA in word.upper():
        return f"; {WITH_TEXT}"
    return "; a comment has a line of its own" if b"#" in word else ""


def checked_names(words, where):
    """The names in a part of a line that has no place for #PCDATA."""
    if PCDATA in words:
        raise Bad(f"{where}: #PCDATA is not in its place; {WITH_TEXT}, with #PCDATA once, right behind ':'")
    return [checked(word, where, advice_on(word)) for word in words]


def block_of_line(line, where):
    if line.startswith(b"+"):
        raise Bad(f"{where}: a line cannot begin with '+'; such a line once gave names that no block uses, and every "
                  "call now refuses a book with such a name (17); remove it, or write a block that uses the name")
    parent, colon, behind = line.partition(b":")
    if not colon:
        raise Bad(f"{where}: no ':' behind the parent; a block is written as 'entry: member contribution total'; "
                  + WITH_TEXT)
    parent, children = parent.strip(), behind.split()
    if not parent:
        raise Bad(f"{where}: no parent before ':'")
    checked_names(parent.split(), where)
    text = children[:1] == [PCDATA]
    children = checked_names(children[text:], where)
    return checked_block(where, checked(parent, where), TEXT if text else NOTHING, children)


def blocks_of_lines(data, file):
    """The blocks of a file of lines, and the place of each."""
    blocks, places = [], []
    if data[:2] in UTF_16 or b"\0" in data:
        raise Bad(f"{file}: neither an XML document nor lines of text in UTF-8: it is UTF-16 or no text")
    for at, line in enumerate(data.splitlines(), 1):
        where = f"{file}, line {at}"
        line = line.strip()
        # A line that begins with the word #PCDATA is no comment, but a block that was written wrongly.
        if not line or line.startswith(b"#") and not re.match(rb"#PCDATA(?![^\s:])", line):
            continue
        blocks.append(block_of_line(line, where))
        places.append(where)
    return blocks, places


def lines_of(names, blocks):
    """A book as lines: its blocks in order."""
    lines = [b" ".join([names[parent] + b":"] + [PCDATA] * text + [names[child] for child in children])
             for parent, text, children in blocks]
    return b"".join(line + b"\n" for line in lines)


# XML documents


class Reader:
    """Walks one document, and tells a class below of it: `start` and `end` of a tag, `holds` of what is between."""

    def __init__(self, file):
        self.file = file
        self.entities = {}  # the replacement text of each entity that is declared; None if it is in another file
        self.reading = []  # the names of the entities that are being read
        self.inner = None  # the parser of the document, or of the innermost of these entities
        self.data = b""  # what `inner` reads
        parser = xml.parsers.expat.ParserCreate()
        parser.EntityDeclHandler = self.entity
        parser.StartElementHandler = self.start
        parser.EndElementHandler = self.end
        parser.CharacterDataHandler = self.characters
        parser.StartCdataSectionHandler = lambda: self.holds(MARKED)
        parser.CommentHandler = lambda _text: self.holds(REMARK)
        parser.ProcessingInstructionHandler = lambda _target, _text: self.holds(REMARK)
        parser.ExternalEntityRefHandler = self.external
        # With a default handler the parser skips entities, and `reference` reads them.
        parser.DefaultHandler = lambda _data: None
        parser.SkippedEntityHandler = self.reference
        self.parser = parser

    def where(self, line=None):
        return f"{self.file}, line {self.parser.CurrentLineNumber if line is None else line}"

    def entity(self, name, is_parameter, text, *_elsewhere):
        if not is_parameter:
            self.entities[name] = text

    def characters(self, data):
        offset = self.inner.CurrentByteIndex
        referred = self.data[offset:offset + 2].strip(b"\0").startswith(b"&")
        self.holds(TEXT if data.strip(" \t\r\n") else MARKED if referred else BLANK)

    def external(self, _context, _base, system, _public):
        raise Bad(f"{self.where()}: a reference to an entity in another file ({system}); "
                  "put its text in its place first")

    def reference(self, name, _is_parameter):
        """Reads the entity as if it were in a file of its own, so that character references in it can be told."""
        if name not in self.entities:
            raise Bad(f"{self.where()}: a reference to the entity '{name}', of which no declaration was read; "
                      "it may stand in another file, or behind a reference to one")
        if name in self.reading:
            raise Bad(f"{self.where()}: not a well-formed XML document: the entity '{name}' holds itself")
        self.holds(REFERENCE)
        outer = self.inner, self.data
        parser = self.inner.ExternalEntityParserCreate("")
        parser.XmlDeclHandler = None
        self.reading.append(name)
        self.parse(parser, b"<?xml encoding='utf-8'?>" + self.entities[name].encode())
        self.reading.pop()
        self.inner, self.data = outer

    def parse(self, parser, data):
        self.inner, self.data = parser, data
        try:
            parser.Parse(data, True)
        except xml.parsers.expat.ExpatError as e:
            raise Bad(f"{self.where()}: not a well-formed XML document: {xml.parsers.expat.ErrorString(e.code)}")
        except (LookupError, ValueError, RecursionError) as e:
            raise Bad(f"{self.where()}: not a readable XML document: {e}")
        except MemoryError:
            raise Bad(f"{self.where()}: there is not enough memory to read the rest")

    def read(self, data):
        self.parse(self.parser, data)
        return self


class Document(Reader):
    """Walks one document; `blocks` then has a block for each element, in the order of opening tags."""

    def __init__(self, file):
        super().__init__(file)
        self.blocks = []
        self.open = []  # the places in `blocks` of the elements that are open
        self.tags = []  # the line of each block's opening tag
        self.attributes = []  # the names of the elements that have attributes
        self.standalone = False  # whether the document says standalone="yes"
        self.parser.XmlDeclHandler = self.declaration

    def declaration(self, _version, _encoding, standalone):
        self.standalone = standalone == 1

    def start(self, name, attributes):
        name = checked(name.encode(), self.where())
        if self.open:
            self.blocks[self.open[-1]][2].append(name)
        if attributes:
            self.attributes.append(name)
        self.open.append(len(self.blocks))
        self.blocks.append((name, NOTHING, []))
        self.tags.append(self.parser.CurrentLineNumber)

    def end(self, _name):
        place = self.open.pop()
        self.blocks[place] = checked_block(self.where(self.tags[place]), *self.blocks[place])

    def holds(self, content):
        if self.open:
            parent, before, children = self.blocks[self.open[-1]]
            self.blocks[self.open[-1]] = parent, max(before, content), children


def notes_of(documents, blocks):
    """What `make` says where a DTD made from these blocks does not allow a document, or only because it allows text."""
    holders = with_children(blocks)
    greatest = {}
    for parent, content, _ in blocks:
        greatest[parent] = max(content, greatest.get(parent, NOTHING))

    def having(kind, children, some):
        """The parents of blocks with this content, where no block of that name has more."""
        return [p for p, content, _ in some if content == greatest[p] == kind and (p in holders) == children]
    alone = [block for document in documents if document.standalone for block in document.blocks]
    for what, parents, effect in (
        ("CDATA sections, or white space written as character references, taken for text in",
         having(MARKED, True, blocks),
         "they are allowed only where text is, so a DTD made from this book allows text there; "
         "write white space as it is, or nothing, if it should not"),
        ("comments or processing instructions left out of", having(REMARK, False, blocks),
         "a DTD made from this book says EMPTY, which allows none of them; remove them"),
        ('white space around children in a document with standalone="yes" in', having(BLANK, True, alone),
         "a DTD in another file does not allow it there; drop standalone"),
        ("attributes left out of", [name for document in documents for name in document.attributes],
         "a book has no place for attributes, and a DTD made from this one declares none; "
         "strip them first where a file has to be valid"),
    ):
        held = ", ".join(f"{name.decode()} ({n})" for name, n in sorted(collections.Counter(parents).items()))
        if held:
            yield f"note: {what} {held}: {effect}"


def slips_of(blocks, places):
    """What `make` says where a few blocks with text, at these places, make a model with names a mixed one."""
    holders = with_children(blocks)
    count = collections.Counter(parent for parent, _, _ in blocks)
    texts = {}
    for (parent, content, _), place in zip(blocks, places):
        if content > BLANK and parent in holders:
            texts.setdefault(parent, []).append((content, place))
    for parent, found in sorted(texts.items()):
        # Where there are CDATA sections and references alone, `notes_of` says more.
        if max(content for content, _ in found) == TEXT and 2 * len(found) < count[parent]:
            yield (f"note: text in {len(found)} of {count[parent]} blocks of {parent.decode()}, the first in "
                   f"{found[0][1]}: a DTD made from this book allows its children in any order and number, with text "
                   "among them; remove the text if it is a slip")


# Books


def check_names_used(names, blocks):
    """Refuses the book with these names and blocks where no block uses one of the names."""
    unused = sorted(set(range(len(names))) - used_in(blocks))
    if unused:
        first = unused[0]
        place = 2 + sum(1 + len(name) for name in names[:first]) + 1
        more = f", and {len(unused) - 1} more" if len(unused) > 1 else ""
        raise Refused(17, place, f"name {first}, {shown(names[first])}{more}")


def read_book(data):
    """The names and the blocks (as numbers) of a book, or Refused."""
    if len(data) > BOOK_BYTES:
        raise Refused(1, BOOK_BYTES, f"{len(data):,} bytes")
    at = 0

    def take(size, what):
        nonlocal at
        if at + size > len(data):
            raise Refused(2, len(data), f"{what} needs {size} and {len(data) - at} are there")
        at += size
        return data[at - size:at]

    count = int.from_bytes(take(2, "the count of names"), "little")
    if not 1 <= count <= NAMES:
        raise Refused(3, 0, f"it is {count}")
    names = []
    for i in range(count):
        size = take(1, f"the length of name {i}")[0]
        if not 1 <= size <= NAME_BYTES:
            raise Refused(4, at - 1, f"name {i} has length {size}")
        name = take(size, f"name {i}")
        fault = name_fault(name)
        if fault:
            raise Refused(4, at - size, f"name {i}, {shown(name)}, {fault}")
        if names and name <= names[-1]:
            raise Refused(5, at - size, f"name {i}, {shown(name)}, comes after {shown(names[-1])}")
        names.append(name)
    blocks = []
    for i in range(int.from_bytes(take(2, "the count of blocks"), "little")):
        parent = take(1, f"the parent of block {i}")[0]
        if parent >= count:
            raise Refused(6, at - 1, f"block {i} has parent {parent} of {count} names")
        text = take(1, f"the text byte of block {i}")[0]
        if text > 1:
            raise Refused(16, at - 1, f"that of block {i} is {text}")
        size = take(1, f"the child count of block {i}")[0]
        children = take(size, f"the child list of block {i}")
        for k, child in enumerate(children):
            if child >= count:
                raise Refused(6, at - size + k, f"block {i} has child {child} of {count} names")
        blocks.append((parent, text, tuple(children)))
    if at < len(data):
        raise Refused(7, at, f"{len(data) - at} of them")
    check_names_used(names, blocks)
    return names, blocks


# Commands


PIECE = 1000000


def first_bytes(stream, most):
    """The bytes of a stream, at most so many, or all. One `read` of so many would take memory for all of them."""
    if most is None:
        return stream.read()
    pieces = []
    while most > 0 and (piece := stream.read(min(most, PIECE))):
        pieces.append(piece)
        most -= len(piece)
    return b"".join(pieces)


def contents(file, most=None):
    """The bytes of a file, at most so many, or all, and what to call the file in a message."""
    if file == "-" and sys.stdin is None:
        raise Bad("standard input is closed")
    try:
        if file == "-":
            return first_bytes(sys.stdin.buffer, most), "standard input"
        with open(file, "rb") as f:
            return first_bytes(f, most), file
    except OSError as e:
        raise Bad(f"{file}: {e.strerror}")
    except MemoryError:
        raise Bad(f"{file}: there is not enough memory to read it")


def is_xml(data):
    """Whether a file is an XML document: it begins with '<', in UTF-8 or in UTF-16."""
    if data[:2] in UTF_16:
        return data.decode("utf-16", "replace").lstrip().startswith("<")
    return data[:2] in (b"<\0", b"\0<") or data.removeprefix(b"\xef\xbb\xbf").lstrip().startswith(b"<")


def make(files, distinct, say):
    blocks, places, documents = [], [], []
    for file in files:
        data, called = contents(file)
        if is_xml(data):
            document = Document(called).read(data)
            documents.append(document)
            blocks += document.blocks
            places += map(document.where, document.tags)
        else:
            found, lines = blocks_of_lines(data.removeprefix(b"\xef\xbb\xbf"), called)
            if not found:
                raise Bad(f"{called}: holds no block: neither an XML document nor a line such as "
                          "'entry: member total'")
            blocks += found
            places += lines
    book = book_of(with_text(blocks, with_children(blocks)), distinct)
    for note in (*notes_of(documents, blocks), *slips_of(blocks, places)):
        say(note)
    return book


def write_file(file, called, data):
    """Writes a file, given by its path or its descriptor, and closes it. A pipe that nobody reads is passed on."""
    try:
        with open(file, "wb") as f:
            f.write(data)
    except BrokenPipeError:
        raise
    except OSError as e:
        raise Bad(f"{called}: {e.strerror}")


def write_out(data):
    if sys.stdout is None:
        raise Bad("standard output is closed")
    write_file(sys.stdout.fileno(), "standard output", data)


def main(arguments=None):
    parser = argparse.ArgumentParser(
        prog="book.py", description=__doc__, formatter_class=argparse.RawDescriptionHelpFormatter)
    commands = parser.add_subparsers(dest="command", required=True)
    maker = commands.add_parser("make", help="a book from XML documents or from lines")
    maker.add_argument("--distinct", action="store_true", help="keep equal blocks once")
    maker.add_argument(
        "-o", dest="out", metavar="BOOK", default="-", help="the book's file; standard output if none is given")
    maker.add_argument("files", nargs="+", metavar="FILE")
    shower = commands.add_parser("show", help="a book as lines")
    shower.add_argument("book", nargs="?", default="-", metavar="BOOK")
    chosen = parser.parse_args(arguments)
    say = say_as("book.py")
    try:
        if chosen.command == "make":
            book = make(chosen.files, chosen.distinct, say)
            if chosen.out != "-":
                write_file(chosen.out, chosen.out, book)
            elif sys.stdout is not None and sys.stdout.isatty():
                raise Bad("a book is no text: give it a file with -o BOOK, or a pipe")
            else:
                write_out(book)
        else:
            data, called = contents(chosen.book)
            try:
                lines = lines_of(*read_book(data))
            except Refused as e:
                raise Bad(f"{called}: {e}")
            write_out(lines)
    except Bad as e:
        say(e)
        return 1
    except BrokenPipeError:
        return 1
    return 0


if __name__ == "__main__":
    sys.exit(main())
