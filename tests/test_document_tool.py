#!/usr/bin/env python3
"""Tests of tools/document.py that need no library; tests/document_check.py has the others."""
import contextlib
import gzip
import io
import os
import pathlib
import shutil
import subprocess
import sys
import tempfile
import unittest
from unittest import mock

ROOT = pathlib.Path(__file__).resolve().parent.parent
sys.path.insert(0, str(ROOT / "tools"))
import document as tool  # noqa: E402

NONE = 255


def row(factors, modes, text):
    """A row of the table of models: the factor of each name that is in one, the mode of each factor, the text byte."""
    places = bytes(factors.get(number, NONE) for number in range(64))
    return bytes([1, len(modes), text]) + places + bytes(modes).ljust(64, b"\0")


# b has no model; empty is EMPTY, list (b*,list?), mixed (#PCDATA|b)*, text (#PCDATA).
NAMES = [b"b", b"empty", b"list", b"mixed", b"text"]
ROWS = [bytes(131), row({}, [], 0), row({0: 0, 2: 1}, [3, 1], 0), row({0: 0}, [3], 1), row({}, [], 1)]
MODELS = tool.Models(NAMES, b"".join(ROWS))
FULL = tool.Models([b"n%02d" % i for i in range(64)], bytes(131 * 64))


def read(text, models=MODELS):
    return tool.Document("doc.xml", models).read(text)


def words(text, models=MODELS):
    """The pairs of a document: a tag is its name, with '/' where it closes, '?' is another name, '#' is text."""
    names = [name.decode() for name in models.names] + ["?"]
    pairs = read(text, models).pairs
    return " ".join("#" if kind == 2 else "/" * kind + names[number] for kind, number in zip(pairs[::2], pairs[1::2]))


class Fake:
    """In place of the library: MODELS for every book, (b) for every declaration, and verdicts that are given."""

    def __init__(self, *verdicts, refusal=0):
        self.verdicts, self.refusal, self.asked = list(verdicts), refusal, []

    def curlewsong_fill_models(self, _book, _length, table, _room):
        table[:len(MODELS.table)] = list(MODELS.table)
        return tool.Written(self.refusal, len(MODELS.table))

    def curlewsong_read_declaration(self, _book, _book_length, _text, _length):
        return tool.Read(self.refusal, 0, tool.Model())

    def curlewsong_put_model(self, _names, parent, _model, table, _room):
        table[131 * parent] = 1
        return 0

    def curlewsong_accepts_document(self, names, _table, _room, pairs, length):
        self.asked.append((names, pairs))
        assert length == len(pairs)
        return tool.Verdict(*self.verdicts.pop(0))


def run(fake, *arguments):
    """Status, output and messages of the tool with this library."""
    said, written = io.StringIO(), []
    with mock.patch.object(tool, "library", return_value=fake), contextlib.redirect_stderr(said), \
            mock.patch.object(tool.book, "write_out", written.append):
        status = tool.main([str(argument) for argument in arguments])
    return status, b"".join(written).decode(), said.getvalue()


class InFolder(unittest.TestCase):
    def setUp(self):
        folder = tempfile.TemporaryDirectory()
        self.addCleanup(folder.cleanup)
        self.folder = pathlib.Path(folder.name)

    def file(self, name, data):
        (self.folder / name).write_bytes(data)
        return str(self.folder / name)


class Pairs(unittest.TestCase):
    def test_bytes(self):
        self.assertEqual(read(b"<list>\n<b/><mixed>x</mixed></list>").pairs, b"\0\2\0\0\1\0\0\3\2\0\1\3\1\2")
        self.assertEqual(read(b"<x/>").pairs, b"\0\5\1\5")
        self.assertEqual(read(b"<x/>", FULL).pairs, b"\0\x40\1\x40")

    def test_runs(self):
        """One pair for what is between two tags, however it is made up."""
        for text, due in (
            (b"<text/>", "text /text"),
            (b"<text></text>", "text /text"),
            (b"<text>x</text>", "text # /text"),
            (b"<text>x\ny &amp; z\r\n&#65;<!--c-->x<?p i?>x<![CDATA[x]]>x</text>", "text # /text"),
            (b"<mixed>x<b/>y<b/>z</mixed>", "mixed # b /b # b /b # /mixed"),
            (b"<mixed>x<b/><b/></mixed>", "mixed # b /b b /b /mixed"),
            (b"<mixed><b>x</b>y</mixed>", "mixed b # /b # /mixed"),
            (b"<!--c--><?p i?>\n<text/>\n<!--c--><?p i?>", "text /text"),
        ):
            with self.subTest(text=text):
                self.assertEqual(words(text), due)

    def test_what_is_text(self):
        """For each kind of content: whether it is a text pair in EMPTY, names alone, no model, mixed, text alone."""
        for content, due in (
            (b"", "-----"),
            (b"x", "#####"),
            (b" x ", "#####"),
            ("\u00a0".encode(), "#####"),
            (b"&#120;", "#####"),
            (b" ", "#--##"),
            (b"\t\r\n", "#--##"),
            (b"<!--c-->", "#----"),
            (b"<?p i?>", "#----"),
            (b" <!--c--> ", "#--##"),
            (b"<![CDATA[]]>", "#####"),
            (b"<![CDATA[ ]]>", "#####"),
            (b"&#32;", "#####"),
            (b"&#xA;", "#####"),
            # entities: nothing, a comment, white space, white space that stays a reference, text
            (b"&n;", "#----"),
            (b"&c;", "#----"),
            (b"&s;", "#--##"),
            (b"&r;", "#####"),
            (b"&t;", "#####"),
        ):
            head = (b"<!DOCTYPE a [<!ENTITY n ''><!ENTITY c '<!--c-->'><!ENTITY s '&#32;'><!ENTITY r '&#38;#32;'>"
                    b"<!ENTITY t 'x'>]>")
            for name, text in zip(("empty", "list", "b", "mixed", "text"), due):
                with self.subTest(content=content, name=name):
                    document = head + b"<%s>%s</%s>" % (name.encode(), content, name.encode())
                    self.assertEqual(words(document), f"{name} {'# ' * (text == '#')}/{name}")

    def test_content_does_not_pass_a_tag(self):
        self.assertEqual(words(b"<list> <b/>x<b/> <list><!--c--></list></list>"),
                         "list b /b # b /b list /list /list")
        self.assertEqual(words(b"<list> <empty/> <empty> </empty></list>"), "list empty /empty empty # /empty /list")

    def test_entities(self):
        head = b"<!DOCTYPE a [<!ENTITY e '<b/>x'><!ENTITY f '&e;&e;'><!ENTITY o SYSTEM 'other.xml'>]>\n"
        self.assertEqual(words(head + b"<mixed>&f;</mixed>"), "mixed b /b # b /b # /mixed")
        with self.assertRaisesRegex(tool.Bad, "doc.xml, line 2, column 7: .* an entity in another file"):
            read(head + b"<text>&o;</text>")

    def test_other_names(self):
        """They share the number behind the last name; the first one is kept with its line."""
        self.assertEqual(words("<list>\n<\u03b1/><p:b> x</p:b>\n<B> </B></list>".encode()),
                         "list ? /? ? # /? ? /? /list")
        self.assertEqual(tool.unknown(read("<list>\n<p:\u03b1/><c/></list>".encode())),
                         "line 2: the element 'p:\u03b1' is not among the names")
        self.assertIsNone(tool.unknown(read(b"<list><b/></list>")))
        self.assertEqual(tool.unknown(read(b"<" + b"n" * 100000 + b"/>")),
                         "line 1: the element '" + "n" * 60 + "..' is not among the names")

    def test_encodings(self):
        for text in ("<mixed>\u00e9<b/></mixed>".encode("utf-16"), b"\xef\xbb\xbf<mixed>x<b/></mixed>",
                     b"<?xml version='1.0' encoding='ISO-8859-1'?><mixed>\xe9<b/></mixed>"):
            self.assertEqual(words(text), "mixed # b /b /mixed")

    def test_broken(self):
        for text, said in (
            (b"<list>\n  <b></list>", "doc.xml, line 2, column 8: not a well-formed XML document: mismatched tag"),
            (b"<list>", "doc.xml, line 1, column 7: not a well-formed XML document: no element found"),
            (b"<list/>x", "line 1, column 8: not a well-formed XML document: junk after document element"),
            (b"<list/><list/>", "junk after document element"),
            (b"<list>&x;</list>", "undefined entity"),
            (b"<a" + b"\0" * 9, "not a well-formed XML document"),
            (b"<?xml version='1.0' encoding='no-such'?><b/>", "XML document"),
        ):
            with self.subTest(text=text), self.assertRaises(tool.Bad) as raised:
                read(text)
            self.assertIn(said, str(raised.exception))


class Limits(unittest.TestCase):
    def test_long(self):
        """One pair more than the library takes is kept, and the rest is still read."""
        for children, size in ((14998, 59996), (14999, 60000), (15000, 60002), (40000, 60002)):
            document = read(b"<list>" + b"<b/>" * children + b"</list>")
            self.assertEqual((len(document.pairs), len(document.lines)), (size, size // 2))
        self.assertEqual(len(read(b"<mixed>" + b"<b/>" * 14999 + b"x</mixed>").pairs), 60002)
        with self.assertRaisesRegex(tool.Bad, "line 1, column 160009: .*mismatched tag"):
            read(b"<list>" + b"<b/>" * 40000 + b"</b>")

    def test_deep(self):
        pairs = read(b"<list>" * 100000 + b"</list>" * 100000).pairs
        self.assertEqual(pairs, b"\0\2" * 30001)
        with self.assertRaisesRegex(tool.Bad, "no element found"):
            read(b"<list>" * 100000)

    def test_large(self):
        many = read(b"<mixed>" + (b"<b>" + b"text" * 25 + b"</b>\n") * 48000 + b"</mixed>")
        self.assertEqual(len(many.pairs), 60002)
        self.assertEqual(read(b"<text>" + b"text " * 1000000 + b"</text>").pairs, b"\0\4\2\0\1\4")

    def test_laughs(self):
        entities = "".join(f"<!ENTITY l{i} '{f'&l{i - 1};' * 10}'>" for i in range(1, 12))
        head = f"<!DOCTYPE a [<!ENTITY l0 '{'ha' * 2000}'>{entities}<!ENTITY x '&y;'><!ENTITY y '&x;'>]>"
        with self.assertRaisesRegex(tool.Bad, "line 1, column .*amplification"):
            read(f"{head}<text>&l11;</text>".encode())
        with self.assertRaisesRegex(tool.Bad, "the entity 'x' holds itself"):
            read(f"{head}<text>&x;</text>".encode())


class Dtds(unittest.TestCase):
    def split(self, data):
        """The declarations, and the notes."""
        notes = []
        return tool.declarations_of(data, "a.dtd", notes.append), notes

    def test_split(self):
        data = (b"\xef\xbb\xbf<?xml encoding='utf-8'?>\n<!-- <!ELEMENT x> - --><!---->\r\n<!ELEMENT a\r(b,\nc)>"
                b"<!ELEMENT b EMPTY>\t<?p <!ELEMENT y> ?>\n\n<!ELEMENT c ANY >\n")
        self.assertEqual(self.split(data), ([(3, b"<!ELEMENT a\r(b,\nc)>"), (5, b"<!ELEMENT b EMPTY>"),
                                             (7, b"<!ELEMENT c ANY >")], []))
        self.assertEqual(self.split(b""), ([], []))

    def test_attributes(self):
        data = b"<!ATTLIST a k CDATA '>\"'\n l CDATA \">'\">\n<!ELEMENT a EMPTY>\n<!ATTLIST a m ID #IMPLIED>"
        self.assertEqual(self.split(data), ([(3, b"<!ELEMENT a EMPTY>")],
                                            ["note: a.dtd, line 1: declarations of attributes are skipped"]))

    def test_other_parts(self):
        for data, line, shown in (
            (b"x", 1, "'x'"),
            (b"<!ELEMENT a EMPTY>\n\n <!ENTITY % b 'c'>\n<!ELEMENT c EMPTY>", 3, "'<!ENTITY % b 'c'>'"),
            (b"<!ELEMENT a EMPTY>\r%b;", 2, "'%b;'"),
            (b"<!NOTATION n SYSTEM 'n'>", 1, "'<!NOTATION n SYSTEM 'n'>'"),
            (b"<![IGNORE[<!ELEMENT a EMPTY>]]>", 1, "'<![IGNORE[<!ELEMENT a EMPTY>]]>'"),
            (b"<!element a EMPTY>", 1, "'<!element a EMPTY>'"),
            (b"<!ELEMENT a EMPTY", 1, "'<!ELEMENT a EMPTY'"),
            (b"<!-- not closed ->", 1, "'<!-- not closed ->'"),
            (b"<!ELEMENT a EMPTY>\n<!ATTLISTx a k ID #IMPLIED>", 2, "'<!ATTLISTx a k ID #IMPLIED>'"),
            (b"<!ATTLIST>", 1, "'<!ATTLIST>'"),
            (b"\n<!ATTLIST a k CDATA '>", 2, "'<!ATTLIST a k CDATA '>'"),
            (b"<?p", 1, "'<?p'"),
            (b"\x1f\x8b\x08" + b"z" * 99, 1, "'\x1f\\x8b\x08" + "z" * 57 + "..'"),
            ("<!ELEMENT a EMPTY>".encode("utf-16-le"), 1, "'<\0!\0"),
        ):
            with self.subTest(data=data), self.assertRaises(tool.Bad) as raised:
                self.split(data)
            self.assertIn(f"a.dtd, line {line}: neither an element declaration nor a comment: {shown}",
                          str(raised.exception))

    def test_comments(self):
        """In a comment '--' is only in its end, and no '-' is before that."""
        for data, line, shown in (
            (b"<!-- a -- b -->", 1, "'<!-- a -- b -->'"),
            (b"<!ELEMENT a EMPTY>\n\n<!-- b\n -- -->", 3, "'<!-- b'"),
            (b"<!-- a --->", 1, "'<!-- a --->'"),
            (b"\n<!-- not closed --", 2, "'<!-- not closed --'"),
        ):
            with self.subTest(data=data), self.assertRaises(tool.Bad) as raised:
                self.split(data)
            self.assertEqual(str(raised.exception), f"a.dtd, line {line}: '--' may be in a comment only in the '-->' "
                             f"that ends it: {shown}")

    def test_large(self):
        """5 MB in one part, closed or not, or in many parts, are read in one pass."""
        for data, declarations in (
            (b"<!ELEMENT a (" + b"b," * 2500000 + b"b)>", 1),
            (b"<!--" + b"- " * 2500000 + b"-->", 0),
            (b"<!ATTLIST a " + (b"'" + b">" * 98 + b"'") * 50000 + b">", 0),
            (b"<!ATTLIST a k ID #IMPLIED><!ELEMENT a EMPTY>" * 20000, 20000),
            (b"\n" * 5000000, 0),
        ):
            with self.subTest(data=data[:20]):
                self.assertEqual(len(self.split(data)[0]), declarations)
                with self.assertRaises(tool.Bad):
                    self.split(data[:-1] + b"<")

    def test_names(self):
        for declaration, names in (
            (b"<!ELEMENT a (b?,(c|d)*)>", b"a b c d"),
            (b"<!ELEMENT\n_a-1.x\t( b\n)>", b"_a-1.x b"),
            (b"<!ELEMENT a EMPTY>", b"a"),
            (b"<!ELEMENT a ANY>", b"a"),
            (b"<!ELEMENT EMPTY EMPTY>", b"EMPTY"),
            (b"<!ELEMENT a (EMPTY|ANY)>", b"ANY EMPTY a"),
            (b"<!ELEMENT a (#PCDATA)>", b"a"),
            (b"<!ELEMENT a (#PCDATA|PCDATA|b)*>", b"PCDATA a b"),
            (b"<!ELEMENT a (" + b"x" * 32 + b"," + b"y" * 33 + b")>", b"a " + b"x" * 32),
            (b"<!ELEMENT>", b""),
        ):
            with self.subTest(declaration=declaration):
                self.assertEqual(b" ".join(sorted(tool.names_in(declaration))), names)


class Places(unittest.TestCase):
    def test_the_element_is_asked_about_alone(self):
        """Each element goes by a number that none of its children has, with its own row, and all others are EMPTY."""
        tables = []

        class Spy(Fake):
            def curlewsong_accepts_document(self, names, table, room, pairs, length):
                tables.append(table)
                return super().curlewsong_accepts_document(names, table, room, pairs, length)

        calls = Spy((0, True), (0, True), (0, False))
        document = read(b"<list>\n<b/>\n<list>\n<b>x</b></list></list>")
        self.assertEqual(tool.first_fault(calls, MODELS, document),
                         "line 3: the model of 'list' does not allow what is in it: b")
        self.assertEqual(calls.asked, [(6, b"\0\0\1\0"), (6, b"\0\1\2\0\1\1"), (6, b"\0\1\0\0\1\0\1\1")])
        empty = row({}, [], 0)
        self.assertEqual(tables, [ROWS[0] + empty * 63, empty + ROWS[0] + empty * 62, empty + ROWS[2] + empty * 62])

    def test_messages(self):
        for text, said in (
            (b"<b/>", "the element 'b' has no model"),
            (b"<empty><!--c--></empty>", "the element 'empty' is EMPTY and has text, white space, a comment, "
             "a processing instruction or an entity in it"),
            (b"<empty> <list/> <empty/></empty>", "the element 'empty' is EMPTY and has elements in it: list empty"),
            (b"<text><empty/></text>", "the model of 'text' does not allow what is in it: empty"),
            (b"<list/>", "the model of 'list' does not allow what is in it: nothing"),
            (b"<mixed>x<b/>y</mixed>", "the model of 'mixed' does not allow what is in it: #PCDATA b #PCDATA"),
            (b"<list>" + b"<list/>" * 12 + b"</list>", "'list' does not allow what is in it: " + "list " * 11 + "list"),
            (b"<list>" + b"<list/>" * 13 + b"</list>", "what is in it: " + "list " * 12 + ".."),
        ):
            document = read(text)
            answers = [(0, True)] * (document.pairs[::2].count(1) - 1) + [(0, False)]
            with self.subTest(text=text[:30]):
                told = tool.first_fault(Fake(*answers), MODELS, document)
                self.assertTrue(told.startswith("line 1: ") and told.endswith(said), told)

    def test_no_number_is_free(self):
        """An element that has all 64 names for children is passed over."""
        text = b"<n00>" + b"".join(b"<%s/>" % name for name in FULL.names) + b"</n00>"
        self.assertIsNone(tool.first_fault(Fake(*[(0, True)] * 64), FULL, read(text, FULL)))


class Commands(InFolder):
    def setUp(self):
        super().setUp()
        self.book = self.file("book", tool.book.book_of([(name, 0, ()) for name in NAMES]))
        self.good = self.file("good.xml", b"<list/>")

    def test_verdicts(self):
        good, other = self.good, self.file("other.xml", b"<list>\n<x/></list>")
        unlisted = "(line 2: the element 'x' is not among the names)"
        for files, verdicts, due in (
            ([good], [(0, True)], (0, f"{good}: valid\n")),
            ([good, good], [(0, True), (0, True)], (0, f"{good}: valid\n" * 2)),
            ([good, good], [(0, False), (0, False), (0, True)],
             (1, f"{good}: not valid (line 1: the model of 'list' does not allow what is in it: nothing)\n"
                 f"{good}: valid\n")),
            ([good], [(0, False), (0, True)], (1, f"{good}: not valid\n")),
            ([other], [(0, False)], (1, f"{other}: not valid {unlisted}\n")),
            ([good], [(19, False)], (1, f"{good}: refused 19: the document opens an element at depth 33\n")),
            ([good], [(1, False)], (1, f"{good}: refused 1: {tool.book.REASONS[1]} (more than 30,000 pairs)\n")),
            ([other], [(1, False)], (1, f"{other}: refused 1: {tool.book.REASONS[1]} (more than 30,000 pairs)\n")),
            ([other], [(19, False)], (1, f"{other}: refused 19: the document opens an element at depth 33\n")),
            ([other], [(18, False)], (1, f"{other}: refused 18: {tool.REASONS[18]} {unlisted}\n")),
        ):
            with self.subTest(files=files, verdicts=verdicts):
                fake = Fake(*verdicts)
                self.assertEqual(run(fake, "check", "--book", self.book, *files), (*due, ""))
                self.assertEqual(fake.verdicts, [])
                self.assertEqual(fake.asked[0], (6, bytes(read(pathlib.Path(files[0]).read_bytes()).pairs)))

    def test_files_that_are_no_document(self):
        """Each has one message and the status 2; the other files have their verdicts."""
        for name, data, said in (
            ("a.xml", b"<list>\n<b>", ", line 2, column 4: not a well-formed XML document: no element found"),
            ("a.gz", gzip.compress(b"<list/>"), ": no XML document: it does not begin with '<'"),
            ("a.book", pathlib.Path(self.book).read_bytes(), ": no XML document: it does not begin with '<'"),
            ("empty", b"", ": no XML document: it does not begin with '<'"),
        ):
            with self.subTest(name=name):
                file = self.file(name, data)
                self.assertEqual(run(Fake((0, False), (0, True)), "check", "--book", self.book, file, self.good),
                                 (2, f"{self.good}: not valid\n", f"document.py: {file}{said}\n"))
        for file, said in ((self.folder / "none", "No such file or directory"), (self.folder, "Is a directory"),
                           ("", "No such file or directory")):
            for arguments in (("--book", self.book, file), ("--book", file, self.good), ("--dtd", file, self.good)):
                self.assertEqual(run(Fake(), "check", *arguments), (2, "", f"document.py: {file}: {said}\n"))

    def test_files_without_end(self):
        """60,001 bytes of a book are read, and a DTD or a document is refused behind so many bytes."""
        fake = Fake(refusal=1)
        with mock.patch.object(fake, "curlewsong_fill_models", wraps=fake.curlewsong_fill_models) as call:
            self.assertEqual(run(fake, "check", "--book", "/dev/zero", self.good),
                             (2, "", f"document.py: /dev/zero: refused 1: {tool.book.REASONS[1]}; "
                              "`book.py show` says at which byte\n"))
        self.assertEqual(call.call_args.args[1], 60001)
        said = "document.py: /dev/zero: it has more than 100,000,000 bytes, which is more than the tool reads\n"
        self.assertEqual(run(Fake(), "check", "--dtd", "/dev/zero", self.good), (2, "", said))
        self.assertEqual(run(Fake((0, True)), "check", "--book", self.book, "/dev/zero", self.good),
                         (2, f"{self.good}: valid\n", said))

    def test_largest_file(self):
        file = self.file("a.xml", b"<list/>".ljust(5000000))
        for largest, status in ((5000000, 0), (4999999, 2)):
            with mock.patch.object(tool, "LARGEST", largest):
                self.assertEqual(run(Fake((0, True)), "check", "--book", self.book, file)[0], status)

    def test_memory(self):
        """Where memory does not suffice for a file, the others have their verdicts."""
        book, good = pathlib.Path(self.book).read_bytes(), b"<list/>"
        for owner, name, answers, said in (
            (tool.book, "first_bytes", [book, MemoryError(), good], ": there is not enough memory to read it"),
            (tool.Document, "put", [MemoryError(), None, None],
             ", line 1, column 8: there is not enough memory to read the rest"),
        ):
            with self.subTest(name=name), mock.patch.object(owner, name, side_effect=answers):
                self.assertEqual(run(Fake((0, True)), "check", "--book", self.book, self.good, self.good),
                                 (2, f"{self.good}: valid\n", f"document.py: {self.good}{said}\n"))

    def test_unexpected_errors(self):
        """Each ends with one line and the status 2."""
        for where in ("parsed", "models_of_book", "judged"):
            for error in (ZeroDivisionError("a\nb"), OSError(5, "Input/output error"), MemoryError(), RecursionError()):
                with self.subTest(where=where, error=error), mock.patch.object(tool, where, side_effect=error):
                    said = f"document.py: the tool has failed, by an error of its own: {error!r}\n"
                    self.assertEqual(run(Fake(), "check", "--book", self.book, self.good), (2, "", said))

    def test_messages_that_cannot_be_written(self):
        """They are dropped: the verdict and the status are the same."""
        file = self.file("notes.xml", b"<list k='v'/>")
        for files, due in (([file, self.good], (0, f"{file}: valid\n{self.good}: valid\n")),
                           ([file, "none", "none"], (2, f"{file}: valid\n"))):
            full = mock.Mock()
            full.write.side_effect = OSError(28, "No space left on device")
            with contextlib.redirect_stderr(full):
                status, lines = tool.check(Fake((0, True), (0, True)), MODELS, files, tool.book.say_as("document.py"))
            self.assertEqual((status, lines), due)
            full.write.assert_called_once()

    def test_standard_input_twice(self):
        said = "document.py: '-' is given more than once, and standard input can be read only once\n"
        for arguments in ("check --dtd - -", "check --book - -", "check --book b a.xml - b.xml -",
                          "pairs --dtd - - -o p", "pairs --book - - -o -"):
            with self.subTest(arguments=arguments):
                self.assertEqual(run(Fake(), *arguments.split()), (2, "", said))

    def test_notes(self):
        """Attributes and a DOCTYPE are told of once."""
        file = self.file("notes.xml", b"<!DOCTYPE list [<!ATTLIST b k CDATA 'v'>]><list><b l='1'/><b l='2'/></list>")
        attributes = f"document.py: note: {file} has attributes, which are not judged\n"
        doctype = f"document.py: note: {file} has a DOCTYPE, of whose declarations only those of entities are used\n"
        status, out, said = run(Fake((0, True), (0, True)), "check", "--book", self.book, file, file)
        self.assertEqual((status, out), (0, f"{file}: valid\n" * 2))
        self.assertEqual(sorted(said.splitlines(True)), sorted([attributes, doctype]))
        self.assertEqual(run(Fake(), "pairs", "--book", self.book, file, "-o", self.folder / "pairs"), (0, "", said))

    def test_refused_book(self):
        self.assertEqual(run(Fake(refusal=7), "check", "--book", self.book, self.good),
                         (2, "", f"document.py: {self.book}: refused 7: {tool.book.REASONS[7]}; "
                          "`book.py show` says at which byte\n"))

    def test_bad_dtds(self):
        many = b"".join(b"<!ELEMENT n%d EMPTY>\n" % i for i in range(65))
        for data, refusal, said in (
            (b"\n<!ELEMENT a ANY>", 13, f", line 2: refused 13: {tool.REASONS[13]}: '<!ELEMENT a ANY>'"),
            (b"<!ELEMENT a (b)>\n<!ELEMENT a (b)>", 0, ", line 2: the element 'a' is declared twice"),
            (b"<!ENTITY a 'b'>", 0, ", line 1: neither an element declaration nor a comment: '<!ENTITY a 'b'>'"),
            (many, 0, ": 65 names are declared or used, and at most 64 can be"),
            (b"<!-- nothing -->", 0, ": no element is declared by a name that the rule for names allows"),
            ("<!ELEMENT \u03b1 (\u03b2)>".encode(), 0,
             ": no element is declared by a name that the rule for names allows"),
        ):
            with self.subTest(data=data[:40]):
                file = self.file("a.dtd", data)
                self.assertEqual(run(Fake(refusal=refusal), "check", "--dtd", file, self.good),
                                 (2, "", f"document.py: {file}{said}\n"))

    def test_pairs(self):
        out = self.folder / "pairs"
        out.write_bytes(b"old")
        self.assertEqual(run(Fake(), "pairs", "--book", self.book, self.file("a.xml", b"<list"), "-o", out)[0], 2)
        self.assertEqual(out.read_bytes(), b"old")
        self.assertEqual(run(Fake(), "pairs", "--book", self.book, self.good, "-o", out), (0, "", ""))
        self.assertEqual(out.read_bytes(), b"\0\2\1\2")
        self.assertEqual(run(Fake(), "pairs", "--book", self.book, self.good, "-o", "-"), (0, "\0\2\1\2", ""))
        self.assertEqual(run(Fake(), "pairs", "--book", self.book, self.good, "-o", ""),
                         (2, "", "document.py: the name behind -o is empty\n"))
        file = self.file("other.xml", b"<x>" + b"<b/>" * 20000 + b"</x>")
        self.assertEqual(run(Fake(), "pairs", "--book", self.book, file, "-o", out), (
            0, "", f"document.py: note: {file}, line 1: the element 'x' is not among the names; it has the number 5\n"
            f"document.py: note: {file}: only the first 30,001 pairs are written; they are refused (1)\n"))
        self.assertEqual(len(out.read_bytes()), 60002)

    def test_output_files(self):
        """A file is put in the place of the old one, behind a link too; a pipe keeps its place."""
        old = pathlib.Path(self.file("old", b"old"))
        link, kept = self.folder / "link", self.folder / "kept"
        link.symlink_to(old)
        os.link(old, kept)
        tool.write_new(str(link), b"new")
        self.assertEqual((link.is_symlink(), old.read_bytes(), kept.read_bytes()), (True, b"new", b"old"))
        pipe = self.folder / "pipe"
        os.mkfifo(pipe)
        end = os.open(pipe, os.O_RDWR)
        self.addCleanup(os.close, end)
        tool.write_new(str(pipe), b"new")
        self.assertTrue(pipe.is_fifo())
        self.assertEqual(os.read(end, 9), b"new")
        before = sorted(self.folder.iterdir())
        for file in (self.folder, self.folder / "none" / "file", old / "file"):
            with self.subTest(file=file), self.assertRaisesRegex(tool.Bad, f"^{file}: "):
                tool.write_new(str(file), b"new")
        with mock.patch.object(os, "replace", side_effect=OSError(28, "No space left on device")), \
                self.assertRaisesRegex(tool.Bad, "No space left on device"):
            tool.write_new(str(old), b"newer")
        self.assertEqual((sorted(self.folder.iterdir()), old.read_bytes()), (before, b"new"))

    def test_modes_of_output_files(self):
        """That of the old file is kept, and a new file has the usual one."""
        old = pathlib.Path(self.file("old", b"old"))
        usual = old.stat().st_mode
        for mode in (0o600, 0o640, 0o666, 0o444):
            old.chmod(mode)
            tool.write_new(str(old), b"new %o" % mode)
            self.assertEqual((old.stat().st_mode & 0o7777, old.read_bytes()), (mode, b"new %o" % mode))
        tool.write_new(str(self.folder / "new"), b"new")
        self.assertEqual((self.folder / "new").stat().st_mode, usual)

    def test_messages_are_printable(self):
        file = self.file("\x1b[31m.xml", "<list>\n<\u00e9/></list>".encode())
        _, out, _ = run(Fake((0, False)), "check", "--book", self.book, file)
        said = "\\x1b[31m.xml: not valid (line 2: the element '\u00e9' is not among the names)\n"
        self.assertTrue(out.endswith(said), out)

    def test_usage(self):
        for arguments in ("", "check", "check a.xml", "check --book b", "check --book b --dtd d a.xml",
                          "pairs --book b a.xml", "pairs -o p a.xml", "pairs --dtd d -o p a.xml b.xml"):
            with self.subTest(arguments=arguments), contextlib.redirect_stderr(io.StringIO()), \
                    self.assertRaises(SystemExit) as raised:
                tool.main(arguments.split())
            self.assertEqual(raised.exception.code, 2)


class Linking(InFolder):
    def setUp(self):
        super().setUp()
        self.archive, self.shared = self.folder / "archive.a", self.folder / "shared.so"
        for name, value in (("ARCHIVE", self.archive), ("SHARED", self.shared)):
            patch = mock.patch.object(tool, name, value)
            patch.start()
            self.addCleanup(patch.stop)

    def said(self):
        with self.assertRaises(tool.Bad) as raised:
            tool.library()
        sentence = f"the library {self.archive} cannot be used; `bash tools/build.sh library` makes it ("
        self.assertIn(sentence, str(raised.exception))
        return str(raised.exception)

    def archive_of(self, source):
        subprocess.run(["cc", "-xc", "-", "-c", "-fPIC", "-o", self.folder / "o"], input=source.encode(), check=True)
        self.archive.unlink(missing_ok=True)
        subprocess.run(["ar", "rc", self.archive, self.folder / "o"], check=True)

    def test_missing(self):
        self.assertIn("(it is missing)", self.said())
        self.archive.write_bytes(b"")
        with mock.patch.object(shutil, "which", return_value=None):
            self.assertIn("a C compiler is needed as cc", self.said())
        self.archive.write_bytes(b"no archive")
        self.assertIn("cc cannot link it", self.said())
        self.assertEqual(list(self.folder.iterdir()), [self.archive])

    def test_older_library(self):
        self.archive_of("int curlewsong_accepts_word(void) { return 1; }")
        self.assertIn("undefined symbol: curlewsong_accepts_document", self.said())

    def test_linked_anew_where_the_archive_is_newer(self):
        self.archive_of("".join(f"int {name}(void) {{ return 1; }}" for name in tool.CALLS))
        tool.link()
        first = self.shared.stat()
        tool.link()
        self.assertEqual(self.shared.stat(), first)
        os.utime(self.archive, ns=(first.st_mtime_ns,) * 2)
        tool.link()
        self.assertNotEqual(self.shared.stat(), first)
        self.assertEqual(tool.library().curlewsong_put_model.restype, tool.ctypes.c_uint8)
        self.assertEqual(sorted(self.folder.iterdir()), [self.archive, self.folder / "o", self.shared])

    def test_command(self):
        """Without the library the tool says one sentence, with the status 2."""
        shutil.copytree(ROOT / "tools", self.folder / "tools")
        done = subprocess.run([sys.executable, self.folder / "tools" / "document.py", "check", "--dtd", "d", "a.xml"],
                              capture_output=True, text=True)
        self.assertEqual((done.returncode, done.stdout, done.stderr.count("\n")), (2, "", 1))
        self.assertIn("`bash tools/build.sh library` makes it", done.stderr)


if __name__ == "__main__":
    unittest.main()
