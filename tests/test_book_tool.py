#!/usr/bin/env python3
"""Tests of tools/book.py: what it makes, what it shows, and what it says of bad files."""
import io
import pathlib
import subprocess
import sys
import tempfile
import unittest

ROOT = pathlib.Path(__file__).resolve().parent.parent
TOOL = ROOT / "tools" / "book.py"
sys.path.insert(0, str(ROOT / "tools"))
sys.path.insert(0, str(ROOT / "tests"))
import book as tool  # noqa: E402
import book_cases  # noqa: E402


def run(*arguments, fed=b"", redirected="", folder=None):
    """Status, output and messages of the tool, in a folder; `redirected` is put behind the command, as in a shell."""
    command = ["sh", "-c", f'"$@" {redirected}', "sh", sys.executable, str(TOOL), *map(str, arguments)]
    done = subprocess.run(command, input=fed, capture_output=True, cwd=folder)
    return done.returncode, done.stdout, done.stderr.decode()


def made(*texts, distinct=False):
    """The book that `make` makes of these files' contents, and its notes; Bad is passed on."""
    notes = []
    with tempfile.TemporaryDirectory() as folder:
        files = []
        for i, text in enumerate(texts):
            file = pathlib.Path(folder) / f"file{i}"
            file.write_bytes(text)
            files.append(str(file))
        return tool.make(files, distinct, notes.append), notes


def shown(book):
    return tool.lines_of(*tool.read_book(book))


def refusal(book):
    """What the tool says of a book that is refused, or None."""
    try:
        tool.read_book(book)
    except tool.Refused as e:
        return str(e)
    return None


class Lines(unittest.TestCase):
    def test_paper_example(self):
        lines = b"entry: member contribution total\nentry: member leaver reason\nentry: member contribution reason\n"
        self.assertEqual(made(lines)[0], book_cases.EXAMPLE)
        self.assertEqual(shown(book_cases.EXAMPLE), lines)

    def test_layout_of_lines(self):
        for end in (b"\r\n", b"\r", b"\n"):
            book, _ = made(b"\xef\xbb\xbf# a comment\n\n  b :a   a\t\na:\n".replace(b"\n", end))
            self.assertEqual(shown(book), b"b: a a\na:\n")

    def test_text(self):
        lines = b"note: #PCDATA b i\namount: #PCDATA\nnote: b\nnote:\n"
        book, _ = made(lines)
        self.assertEqual(book, b"\4\0\6amount\1b\1i\4note\4\0" b"\3\1\2\1\2" b"\0\1\0" b"\3\0\1\1" b"\3\0\0")
        self.assertEqual(shown(book), lines)
        self.assertEqual(made(b"note: #PCDATA b i\namount: #PCDATA\nnote: b\n")[1], [])
        self.assertEqual(shown(made(b"note:#PCDATA\tb\r\n")[0]), b"note: #PCDATA b\n")

    def test_text_in_another_place(self):
        for line in (b"note: b #PCDATA", b"note: #PCDATA #PCDATA", b"note: #PCDATA b #PCDATA", b"#PCDATA: b",
                     b"#PCDATA note: b", b"note #PCDATA: b"):
            with self.subTest(line=line), self.assertRaises(tool.Bad) as raised:
                made(b"a:\n" + line + b"\n")
            self.assertIn("line 2: #PCDATA is not in its place", str(raised.exception))
            self.assertIn("'note: #PCDATA em ref'", str(raised.exception))
        for line in (b"#PCDATA", b"#PCDATA b", b"note #PCDATA b"):
            with self.subTest(line=line), self.assertRaises(tool.Bad) as raised:
                made(line)
            self.assertIn("line 1: no ':' behind the parent", str(raised.exception))
            self.assertIn("'note: #PCDATA em ref'", str(raised.exception))
        for line in (b"note: #pcdata", b"note: #PCDATAb", b"note: # PCDATA", b"note: #PCDATA, b"):
            with self.subTest(line=line), self.assertRaisesRegex(tool.Bad, "line 1: the name '#.*' holds '#'"):
                made(line)
        for line in (b"a: #pcdata", b"a: (#PCDATA)", b"a: #PCDATA|b", b"a: (#PCDATA | b)*"):
            with self.subTest(line=line), self.assertRaises(tool.Bad) as raised:
                made(line)
            self.assertIn("; a block with text is written as 'note: #PCDATA em ref'", str(raised.exception))
        for line in (b"# #PCDATA: b", b"#PCDATA-like: b", b"#PCDATA's place"):
            self.assertEqual(shown(made(b"a:\n" + line)[0]), b"a:\n")

    def test_names_without_a_block(self):
        """No line gives such names: what a line with '+' gave is refused, also where a block uses the names."""
        for line in (b"+ memo", b"+memo", b"+", b"+ b", b" + memo b", b"+ #PCDATA", b"+ memo: b"):
            with self.subTest(line=line), self.assertRaises(tool.Bad) as raised:
                made(b"a: b\n" + line + b"\n")
            self.assertIn("line 2: a line cannot begin with '+'; such a line once gave names that no block uses, and "
                          "every call now refuses a book with such a name (17); remove it, or write a block that uses "
                          "the name", str(raised.exception))
        self.assertEqual(made(b"# + memo\na:\n")[0], b"\1\0\1a\1\0\0\0\0")

    def test_bad_lines(self):
        for text, said in (
            (b"", "holds no block"),
            (b"# nothing\n", "holds no block"),
            (b"a:\nentry member total\n", "line 2: no ':'"),
            (b": a\n", "line 1: no parent"),
            (b"a b: c\n", "line 1: the name 'a b' holds byte 32"),
            (b"a: 1b\n", "the name '1b' starts with '1'"),
            (b"a: b:c\n", "no namespace prefixes"),
            (b"a: \xce\xb1\n", "holds byte 206"),
            (b"a:\ra: b:\r", "line 2: the name 'b:'"),
            (b"a: b # comment\n", "the name '#' holds '#'; a name starts with A-Z, a-z or _ and goes on with these, "
             "0-9, - or .; a comment has a line of its own"),
            (b"a: b #comment\n", "; a comment has a line of its own"),
            ("a: b\n".encode("utf-16"), "it is UTF-16 or no text"),
            ("a: b\n".encode("utf-16-le"), "it is UTF-16 or no text"),
            (book_cases.EXAMPLE, "it is UTF-16 or no text"),
            (b"a: " + b"b" * 33 + b"\n", "has 33 bytes"),
            (b"a:" + b" b" * 256 + b"\n", "'a' has 256 children"),
            (b"n0: " + b" ".join(b"n%d" % i for i in range(65)), "there are 65 names"),
        ):
            with self.subTest(text=text[:20]), self.assertRaises(tool.Bad) as raised:
                made(text)
            self.assertIn(said, str(raised.exception))

    def test_limits_that_pass(self):
        for text in (b"a: " + b"b" * 32, b"a:" + b" b" * 255, b"n0: " + b" ".join(b"n%d" % i for i in range(64))):
            self.assertEqual(made(shown(made(text)[0]))[0], made(text)[0])

    def test_size(self):
        fits = b"a:" + b" a" * 255 + b"\n"
        # 6 bytes before the blocks; 232 blocks of 258 bytes and one of 138 fill a book.
        full = fits * 232 + b"a: #PCDATA" + b" a" * 135 + b"\n"
        self.assertEqual(len(made(full)[0]), 60000)
        with self.assertRaises(tool.Bad) as raised:
            made(full + b"a:\n")
        self.assertIn("60,003 bytes", str(raised.exception))
        self.assertIn("--distinct", str(raised.exception))
        self.assertIn("would have 405", str(raised.exception))
        self.assertEqual(len(made(full + b"a:\n", distinct=True)[0]), 405)

    def test_distinct(self):
        """Blocks that differ in text alone are different blocks."""
        book, _ = made(b"a: b\na: #PCDATA b\na: b\na: #PCDATA b\nb: #PCDATA\n", distinct=True)
        self.assertEqual(shown(book), b"a: b\na: #PCDATA b\nb: #PCDATA\n")


class Slips(unittest.TestCase):
    """A note where a name has children, and text in fewer than half of its blocks."""

    def test_counts(self):
        bare, text, alone, none = b"e: a b\n", b"e: #PCDATA a b\n", b"e: #PCDATA\n", b"e:\n"
        for lines, counts in (
            ([bare, bare, text], "1 of 3"),
            ([bare, bare, alone], "1 of 3"),
            ([none, text, none], "1 of 3"),
            ([bare, text, bare, alone, none], "2 of 5"),
            ([text] + [bare] * 99, "1 of 100"),
            ([text], None),
            ([bare, text], None),
            ([bare, text, none, alone], None),
            ([text, text, bare], None),
            # no children: no order to lose
            ([alone, none, none], None),
            ([bare, none], None),
        ):
            for distinct in (False, True):
                with self.subTest(lines=lines, distinct=distinct):
                    notes = made(b"".join(lines), distinct=distinct)[1]
                    self.assertEqual(len(notes), 0 if counts is None else 1)
                    if counts:
                        self.assertIn(f"note: text in {counts} blocks of e, the first in ", notes[0])
                        self.assertIn("children in any order and number", notes[0])

    def test_places(self):
        """All files count together; each name has its own note, and the place of its first text."""
        notes = made(b"<f>\n<e><a/>.</e>\n<e><a/></e></f>", b"# lines\ne: a\nd: a\nd:\nd: #PCDATA\nd:\n",
                     b"d: #PCDATA a")[1]
        self.assertEqual(len(notes), 2)
        self.assertRegex(notes[0], "^note: text in 2 of 5 blocks of d, the first in .*file1, line 5: ")
        self.assertRegex(notes[1], "^note: text in 1 of 3 blocks of e, the first in .*file0, line 2: ")

    def test_beside_other_notes(self):
        """White space is no text. Of CDATA sections alone another note tells; beside text they count as text."""
        bare, marked = b"<e><a/></e>", b"<e><a/><![CDATA[]]></e>"
        self.assertEqual(made(b"<f>" + bare * 2 + b"<e> <a/></e></f>")[1], [])
        notes = made(b"<f>" + bare * 2 + marked + b"</f>")[1]
        self.assertEqual(len(notes), 1)
        self.assertIn("CDATA sections", notes[0])
        notes = made(b"<f>" + bare * 3 + marked + b"<e>x</e></f>")[1]
        self.assertEqual(len(notes), 1)
        self.assertIn("text in 2 of 5 blocks of e", notes[0])


class Documents(unittest.TestCase):
    def test_each_element_is_a_block(self):
        book, notes = made(b"<?xml version='1.0'?><!DOCTYPE e><e><m/><c><d/></c><m></m></e>")
        self.assertEqual(shown(book), b"e: m c m\nm:\nc: d\nd:\nm:\n")
        self.assertEqual(notes, [])

    def test_several_documents_and_lines(self):
        book, _ = made(b"<b><a/></b>", b"b: c\n", b"<c/>")
        self.assertEqual(shown(book), b"b: a\na:\nb: c\nc:\n")

    def test_text(self):
        """Character data other than white space is text, and so is all that neither EMPTY nor names alone allow."""
        for text, lines in (
            (b"<a>x</a>", b"a: #PCDATA\n"),
            (b"<a> <b/>x</a>", b"a: #PCDATA b\nb:\n"),
            (b"<a><b>x</b></a>", b"a: b\nb: #PCDATA\n"),
            (b"<a><b>x</b><b/></a>", b"a: b b\nb: #PCDATA\nb:\n"),
            (b"<a>&lt;<b/>&#120;</a>", b"a: #PCDATA b\nb:\n"),
            (b"<a><![CDATA[x]]></a>", b"a: #PCDATA\n"),
            (b"<a><![CDATA[ ]]></a>", b"a: #PCDATA\n"),
            (b"<a><![CDATA[]]></a>", b"a: #PCDATA\n"),
            (b"<a><![CDATA[]]><b/></a>", b"a: #PCDATA b\nb:\n"),
            (b"<a>&#32;</a>", b"a: #PCDATA\n"),
            (b"<a>\n<b/>&#10;</a>", b"a: #PCDATA b\nb:\n"),
            (b"\xff\xfe" + "<a>&#32;<b/></a>".encode("utf-16-le"), b"a: #PCDATA b\nb:\n"),
            (b"\xfe\xff" + "<a>&#32;<b/></a>".encode("utf-16-be"), b"a: #PCDATA b\nb:\n"),
            (b"<!DOCTYPE a [<!ENTITY e 'x'>]><a>&e;<b/></a>", b"a: #PCDATA b\nb:\n"),
            (b"<!DOCTYPE a [<!ENTITY e '&#38;#32;'>]><a>&e;<b/></a>", b"a: #PCDATA b\nb:\n"),
            (b"<!DOCTYPE a [<!ENTITY e '&#xFEFF;'>]><a>&e;<b/></a>", b"a: #PCDATA b\nb:\n"),
            ("<a>\u00a0<b/></a>".encode(), b"a: #PCDATA b\nb:\n"),
            # none of these is text
            (b"<a><b/><b></b><b k=';'></b><b k=';'/></a>", b"a: b b b b\nb:\nb:\nb:\nb:\n"),
            (b"<!DOCTYPE a [<!ENTITY e '<b></b>'>]><a>;&e;</a>", b"a: #PCDATA b\nb:\n"),
            (b"<a><b><!--;--></b><?p ;?></a>", b"a: b\nb:\n"),
            (b"x".join([b"<!--", b"--><a/><!--", b"-->\n"]), b"a:\n"),
        ):
            with self.subTest(text=text):
                self.assertEqual(shown(made(text)[0]), lines)

    def test_white_space(self):
        """White space alone is text only where no block of that name has a child, in whichever file."""
        for texts, lines in (
            ([b"<a> </a>"], b"a: #PCDATA\n"),
            ([b"<a>\t\r\n</a>"], b"a: #PCDATA\n"),
            ([b"<a> <!--c--> </a>"], b"a: #PCDATA\n"),
            ([b"<!DOCTYPE a [<!ENTITY e ''>]><a>&e;</a>"], b"a: #PCDATA\n"),
            ([b"\xff\xfe" + "<!DOCTYPE a [<!ENTITY e ''>]><a>&e;</a>".encode("utf-16-le")], b"a: #PCDATA\n"),
            ([b"\xfe\xff" + "<!DOCTYPE a [<!ENTITY e ''>]><a>&e;</a>".encode("utf-16-be")], b"a: #PCDATA\n"),
            ([b"<!DOCTYPE a [<!ENTITY e ''>]><a><b/>&e;</a>"], b"a: b\nb:\n"),
            ([b"<a> <b/>\n</a>"], b"a: b\nb:\n"),
            ([b"<a> <a> </a></a>"], b"a: a\na:\n"),
            ([b"<a> </a>", b"<a><b/></a>"], b"a:\na: b\nb:\n"),
            ([b"<a> </a>", b"a: b\n"], b"a:\na: b\n"),
            ([b"<a> </a>", b"a: #PCDATA\n"], b"a: #PCDATA\na: #PCDATA\n"),
            ([b"<a> <b/></a>", b"<a>x</a>"], b"a: b\nb:\na: #PCDATA\n"),
        ):
            with self.subTest(texts=texts):
                book, notes = made(*texts)
                self.assertEqual((shown(book), notes), (lines, []))

    def test_entities(self):
        """A character reference counts where it is: in the document, or in what replaces a reference to an entity."""
        row, space, marked = "<row> <a/> <b>1</b> </row>", " ", "&#38;#32;"
        latin = "<?xml version='1.0' encoding='ISO-8859-1'?>"
        for entities, text, lines in (
            ({"row": row}, "<p>&row;&row;</p>", "p: row row\n" + "row: a b\na:\nb: #PCDATA\n" * 2),
            ({"sp": space}, "<b><c/>&sp;</b>", "b: c\nc:\n"),
            ({"sp": "&#32;&#x9;&#10;"}, "<b><c/>&sp;</b>", "b: c\nc:\n"),
            ({"sp": space}, "<b>&sp;</b>", "b: #PCDATA\n"),
            ({"sp": marked}, "<b><c/>&sp;</b>", "b: #PCDATA c\nc:\n"),
            ({"sp": marked, "row": "<row> <a/>&sp;</row> "}, "<p>&row;</p>", "p: row\nrow: #PCDATA a\na:\n"),
            ({"sp": marked, "row": "<row k='&sp;'> <a/></row>"}, "<p>&row;</p>", "p: row\nrow: a\na:\n"),
            ({"sp": space, "row": "<row>&sp;<a/></row>"}, "<p>&row;&#32;</p>", "p: #PCDATA row\nrow: a\na:\n"),
            ({"\u00e9": space, "\u00e8": marked}, "<p><a/>&\u00e9;<b><c/>&\u00e8;</b></p>",
             "p: a b\na:\nb: #PCDATA c\nc:\n"),
            ({"none": ""}, "<p><q>&none;</q></p>", "p: q\nq: #PCDATA\n"),
            ({"none": "<!--c-->"}, "<p><q>&none;</q><p/></p>", "p: q p\nq: #PCDATA\np:\n"),
        ):
            # A parameter entity of the same name is another entity, and a second declaration does not count.
            declared = "".join(f'<!ENTITY {name} "{text}"><!ENTITY % {name} "x"><!ENTITY {name} "x">'
                               for name, text in entities.items())
            document = f"<!DOCTYPE p [{declared}]>\n{text}"
            for data in (document.encode(), (latin + document).encode("latin-1"), document.encode("utf-16")):
                with self.subTest(data=data):
                    self.assertEqual(shown(made(data)[0]), lines.encode())

    def test_what_is_left_out(self):
        book, notes = made(b"<e xmlns='u' k='1'><!-- x --><m k='2'>text</m> <?p x?><m><!-- x --></m><n><?p x?></n></e>")
        self.assertEqual(shown(book), b"e: m m n\nm: #PCDATA\nm:\nn:\n")
        self.assertEqual(len(notes), 2)
        self.assertIn("comments or processing instructions left out of n (1)", notes[0])
        self.assertIn("; remove them", notes[0])
        self.assertIn("attributes left out of e (1), m (1)", notes[1])
        self.assertIn("; strip them first", notes[1])

    def test_notes(self):
        """A note where a DTD made from the book turns the document away, or takes it only because it allows text."""
        alone = b"<?xml version='1.0' standalone='yes'?>"
        for text, said in (
            (b"<a><b><!--c--></b><b><?p i?></b></a>", "comments or processing instructions left out of b (2)"),
            (b"<a><b><?p i?></b></a>", "processing instructions left out of b (1)"),
            (b"<a><b><!--c--></b><b>x</b></a>", None),
            (b"<a><b><!--c--></b><b> </b></a>", None),
            # White space and comments are allowed in a model with names, also where it has no child.
            (b"<!--c--><a>\n<?p?> <b/> <!--c--></a>\n<!--c-->", None),
            (b"<a><a><b/></a><a> </a><a><!--c--></a></a>", None),
            # text, though there is no character to be seen
            (b"<a><![CDATA[ ]]><b/></a>",
             "CDATA sections, or white space written as character references, taken for text in a (1)"),
            (b"<a><![CDATA[]]><b/></a>", "taken for text in a (1)"),
            (b"<a><b/>&#32;</a>", "taken for text in a (1)"),
            (b"<!DOCTYPE a [<!ENTITY e '&#38;#32;'>]><a><b/>&e;</a>", "taken for text in a (1)"),
            (b"<!DOCTYPE a [<!ENTITY e '&#32;'>]><a><b/>&e;</a>", None),
            (b"<a><a>&#32;</a>x<b/></a>", None),
            (b"<a><b>&#32;</b></a>", None),
            # XML 1.0, section 2.9
            (alone + b"<a> <a> <b> </b></a></a>", 'in a document with standalone="yes" in a (2)'),
            (alone + b"<a> <b/></a>", "; drop standalone"),
            (alone + b"<a><b/></a>", None),
            (alone + b"<!DOCTYPE a [<!ENTITY e '<b/>'>]><a>&e;</a>", None),
            (alone + b"<!DOCTYPE a [<!ENTITY e ' <b/>'>]><a>&e;</a>", 'in a document with standalone="yes" in a (1)'),
            (alone + b"<a> <b/>x</a>", None),
            (b"<?xml version='1.0' standalone='no'?><a> <b/></a>", None),
        ):
            with self.subTest(text=text):
                notes = made(text)[1]
                self.assertEqual(len(notes), 0 if said is None else 1)
                if said:
                    self.assertIn(said, notes[0])

    def test_inner_entities_count(self):
        book, _ = made(b"<!DOCTYPE e [<!ENTITY two '<m/><m/>'>]><e>&two;</e>")
        self.assertEqual(shown(book), b"e: m m\nm:\nm:\n")

    def test_encodings(self):
        for text in ("<e><m/></e>".encode("utf-16"), " <e><m/></e>".encode("utf-16"), b"\xef\xbb\xbf<e><m/></e>",
                     b"<?xml version='1.0' encoding='ISO-8859-1'?><e><m/></e>"):
            self.assertEqual(shown(made(text)[0]), b"e: m\nm:\n")

    def test_bad_documents(self):
        for text, said in (
            (b"<e>", "line 1: not a well-formed XML document: no element found"),
            (b"<e>\n</f>", "line 2: not a well-formed XML document: mismatched tag"),
            (b"<e/><e/>", "junk after document element"),
            (b"<!-- nothing -->", "no element found"),
            (b"<e>&x;</e>", "undefined entity"),
            (b"<!DOCTYPE e SYSTEM 'e.dtd'><e>&x;</e>", "the entity 'x', of which no declaration was read"),
            (b"<!DOCTYPE e [<!ENTITY % p SYSTEM 'p'> %p; <!ENTITY x 'y'>]><e>&x;</e>", "behind a reference to one"),
            (b"<!DOCTYPE e [<!ENTITY x SYSTEM 'x.xml'>]><e>&x;</e>", "an entity in another file (x.xml)"),
            (b"<!DOCTYPE e [<!ENTITY x SYSTEM 'x.xml'><!ENTITY y '&x;'>]>\n<e>&y;</e>",
             "line 2: a reference to an entity in another file (x.xml)"),
            (b"<!DOCTYPE e [<!ENTITY x '&y;'><!ENTITY y '&x;'>]>\n<e>&x;</e>",
             "line 2: not a well-formed XML document: the entity 'x' holds itself"),
            (b"<!DOCTYPE e [<!ENTITY x '<m>'>]>\n<e>&x;</m></e>", "line 2: not a well-formed XML document"),
            (b"<!DOCTYPE e [" + b"".join(b"<!ENTITY x%d '&x%d;'>" % (i, i + 1) for i in range(600))
             + b"<!ENTITY x600 ''>]><e>&x0;</e>", "line 1: not a readable XML document: "),
            (b"<e>\n<p:m xmlns:p='u'/></e>", "line 2: the name 'p:m' holds ':'"),
            ("<\u03b1/>".encode(), "holds byte 206"),
            (b"<" + b"e" * 33 + b"/>", "has 33 bytes"),
            (b"<e>\n<f>" + b"<g/>" * 256 + b"</f></e>", "line 2: 'f' has 256 children"),
            (b"<e>" + b"".join(b"<n%d/>" % i for i in range(64)) + b"</e>", "there are 65 names"),
            (b"<?xml version='1.0' encoding='no-such'?><e/>", "XML document"),
        ):
            with self.subTest(text=text[:40]), self.assertRaises(tool.Bad) as raised:
                made(text)
            self.assertIn(said, str(raised.exception))

    def test_deep(self):
        book, _ = made(b"<e>" * 14998 + b"</e>" * 14998)
        self.assertEqual(len(book), 6 + 3 * 14998 + 14997)


class Books(unittest.TestCase):
    def test_the_cases_of_the_book(self):
        """Every refusal on both sides of its limit, with the numbers of the cases of test_book."""
        for label, book, _, line in book_cases.cases():
            with self.subTest(label=label):
                try:
                    names, blocks = tool.read_book(book)
                    self.assertEqual(["0", str(len(names)), str(len(blocks))], line.split()[:3])
                    self.assertEqual([f"{p}:{t}:{len(c)}" for p, t, c in blocks], line.split()[4:])
                except tool.Refused as e:
                    self.assertEqual(str(e.number), line.split()[0])

    def test_text_byte(self):
        """It comes behind the parent and before the child count: missing 2, above 1 16, whatever is behind."""
        for bytes_, number in (
            (b"\0", 2), (b"\1", 6), (b"\0\0", 2), (b"\0\1", 2), (b"\0\2", 16), (b"\0\xff", 16), (b"\1\2\0", 6),
            (b"\0\2\0", 16), (b"\0\2\1\1", 16), (b"\0\1\1", 2), (b"\0\1\1\1", 6), (b"\0\1\0\0", 7),
        ):
            with self.subTest(bytes=bytes_), self.assertRaises(tool.Refused) as raised:
                tool.read_book(b"\1\0\1a\1\0" + bytes_)
            self.assertEqual(raised.exception.number, number)
        self.assertEqual(tool.read_book(b"\1\0\1a\2\0\0\1\1\0\0\0\0"), ([b"a"], [(0, 1, (0,)), (0, 0, ())]))

    def test_names_that_no_block_uses(self):
        """17, after all of the book was read: what the message says of the first such name, and of how many more."""
        names = b"\3\0\1a\2bb\4memo"
        for blocks, said in (
            (b"\0\0", "name 0, 'a', and 2 more, byte 3"),
            (b"\1\0\0\0\0", "name 1, 'bb', and 1 more, byte 5"),
            (b"\1\0\1\0\1\2", "name 0, 'a', byte 3"),
            (b"\1\0\0\1\2\0\2", "name 1, 'bb', byte 5"),
            (b"\2\0\0\0\1\1\1\0\1\0", "name 2, 'memo', byte 8"),
            # each name is a parent only, or a child only
            (b"\2\0\0\0\1\1\2\0\0", None),
            (b"\3\0\2\0\0\1\1\0\0\0\0", None),
        ):
            with self.subTest(blocks=blocks):
                self.assertEqual(refusal(names + blocks), said and (
                    f"refused 17: a name in the book is neither a parent nor a child in any block ({said}); "
                    "remove each such name, or add a block that uses it"))

    def test_the_byte_of_an_unused_name(self):
        names = [b"n%02d" % i + b"x" * (i % 9) for i in range(64)]
        for i in range(64):
            book = book_cases.book([book_cases.name(name) for name in names],
                                   [book_cases.block_of([x for x in range(64) if x != i])])
            with self.subTest(i=i):
                self.assertIn(f"(name {i}, '{names[i].decode()}', byte {book.index(names[i])})", refusal(book))

    def test_lines_and_back(self):
        for label, book, _, line in book_cases.cases():
            if line.startswith("0"):
                with self.subTest(label=label):
                    self.assertEqual(made(shown(book))[0], book)


class Commands(unittest.TestCase):
    def test_samples(self):
        """The book and the lines kept in samples/ are those of the documents kept there."""
        status, out, said = run("make", ROOT / "samples" / "march.xml", ROOT / "samples" / "april.xml")
        self.assertEqual((status, said), (0, ""))
        self.assertEqual(out, (ROOT / "samples" / "feed.book").read_bytes())
        status, out, said = run("show", ROOT / "samples" / "feed.book")
        self.assertEqual((status, said), (0, ""))
        self.assertEqual(out, (ROOT / "samples" / "feed.lines").read_bytes())
        status, out, said = run("make", ROOT / "samples" / "feed.lines")
        self.assertEqual(out, (ROOT / "samples" / "feed.book").read_bytes())

    def test_refused_book(self):
        status, out, said = run("show", fed=book_cases.EXAMPLE[:-1])
        self.assertEqual((status, out), (1, b""))
        self.assertIn("refused 2: the book ends before one of its fields is complete", said)
        status, out, said = run("show", fed=b"\1\0\1a\1\0\0\2\0")
        self.assertEqual((status, out), (1, b""))
        self.assertIn("refused 16: a text byte in the book is above 1 (that of block 0 is 2, byte 7); a book from "
                      "before there were text bytes has to be made again", said)
        status, out, said = run("show", fed=b"\2\0\1a\4memo\1\0\0\0\0")
        self.assertEqual((status, out), (1, b""))
        self.assertIn("standard input: refused 17: a name in the book is neither a parent nor a child in any block "
                      "(name 1, 'memo', byte 5); remove each such name, or add a block that uses it", said)

    def test_missing_file(self):
        status, out, said = run("make", "no-such-file")
        self.assertEqual((status, out), (1, b""))
        self.assertEqual(said, "book.py: no-such-file: No such file or directory\n")

    def test_messages_are_printable(self):
        for fed in (b"\x1b[31mred: a\n", b"a: \xff\x07\n",
                    "<!DOCTYPE e [<!ENTITY x SYSTEM '\x9b31mred'>]><e>&x;</e>".encode()):
            status, _, said = run("make", "-", fed=fed)
            self.assertEqual(status, 1)
            self.assertTrue(said.removesuffix("\n").isprintable(), said)
        self.assertIn("the name '\\x1b[31mred' holds byte 27", run("make", "-", fed=b"\x1b[31mred: a\n")[2])

    def test_bad_file_leaves_the_old_book(self):
        with tempfile.TemporaryDirectory() as folder:
            book = pathlib.Path(folder) / "book"
            book.write_bytes(b"old")
            status, _, said = run("make", "-o", book, "-", fed=b"<e>")
            self.assertEqual(status, 1)
            self.assertIn("standard input, line 1", said)
            self.assertEqual(book.read_bytes(), b"old")
            self.assertEqual(run("make", "-o", book, "-", fed=b"<e/>"), (0, b"", ""))
            self.assertEqual(book.read_bytes(), b"\1\0\1e\1\0\0\0\0")
            status, _, said = run("make", "-o", folder, "-", fed=b"<e/>")
            self.assertEqual(status, 1)

    def test_a_dash_is_standard_output(self):
        with tempfile.TemporaryDirectory() as folder:
            self.assertEqual(run("make", "-o", "-", "-", fed=b"<e/>", folder=folder), (0, b"\1\0\1e\1\0\0\0\0", ""))
            self.assertEqual(list(pathlib.Path(folder).iterdir()), [])

    def test_output_that_cannot_be_written(self):
        for command in (("make", "-"), ("show", ROOT / "samples" / "feed.book")):
            for redirected, said in ((">/dev/full", "standard output: No space left on device"),
                                     (">&-", "standard output is closed")):
                with self.subTest(command=command[0], redirected=redirected):
                    done = run(*command, fed=b"<e/>", redirected=redirected)
                    self.assertEqual(done, (1, b"", f"book.py: {said}\n"))

    def test_other_closed_streams(self):
        self.assertEqual(run("make", "-", redirected="<&-"), (1, b"", "book.py: standard input is closed\n"))
        # A note that has nowhere to go stays out of the book.
        for redirected in ("2>&-", "2>/dev/full"):
            self.assertEqual(run("make", "-", fed=b"<e k=''/>", redirected=redirected),
                             (0, b"\1\0\1e\1\0\0\0\0", ""))
        self.assertEqual(run("make", "-", fed=b"<e>", redirected="2>/dev/full"), (1, b"", ""))

    def test_first_bytes(self):
        """No more bytes are taken than asked for, however many pieces that is."""
        stream = io.BytesIO(bytes(range(250)) * 10000)
        for most, size in ((0, 0), (1, 1), (999998, 999998), (1000001, 1000001), (1000000, 500000), (9, 0)):
            self.assertEqual(len(tool.first_bytes(stream, most)), size)
        stream.seek(0)
        self.assertEqual(tool.first_bytes(stream, 2500001), stream.getvalue())

    def test_usage(self):
        self.assertEqual(run()[0], 2)
        self.assertEqual(run("make")[0], 2)


if __name__ == "__main__":
    unittest.main()
