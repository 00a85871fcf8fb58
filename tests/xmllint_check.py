#!/usr/bin/env python3
"""Printed DTDs, and declarations in the forms that the reader takes, against libxml2.

Usage: python3 tests/xmllint_check.py PROGRAM [VERDICT [ARGUMENT..]]

PROGRAM prints the DTD of a book on standard input; VERDICT, if given, says whether the models of one book accept every
block of another and allow its text (rust/compare/src/bin/verdict.rs). Of each set of documents the book is made with
tools/book.py and the DTD printed with PROGRAM. Then xmllint must find the DTD well formed and the documents valid. It
must find changed documents valid exactly when each element's children match its printed model, as a regular expression
of Python's, and text and white space are only where the model allows them; and exactly when VERDICT says yes.

Each declaration in FORMS of tests/reading_cases.py, which test_reading reads too, must be to xmllint what the house
spelling of its answer is: the same documents are valid, of all those with at most four children, with and without text.
Without xmllint the check is skipped, and says so.
"""
import itertools
import os
import pathlib
import random
import re
import shutil
import subprocess
import sys
import tempfile
from collections import namedtuple

ROOT = pathlib.Path(__file__).resolve().parent.parent
sys.path.insert(0, str(ROOT / "tools"))
import book as tool  # noqa: E402
import reading_cases as reading  # noqa: E402

SEED = 20261115
FEEDS = 8
CHANGES = 12
PARENT, CHILDREN, LONGEST_WORD = "d", "abc", 4
ALL_NAMES = b"all-names"  # a parent that no document has

STORY = """<feed>
<entry><member>Zoë</member><contribution/><total>1.00</total></entry>
<entry><member>Tom</member><leaver/><reason>moved</reason></entry>
<entry><member>Ida</member><contribution/><reason>late, <em>again</em></reason></entry>
</feed>"""
# Each has one fault: a member who has left and still contributes, which no sample has; text beside names; text, and a
# space, where there was nothing; a child in an element that had text alone.
FAULTS = [
    STORY.replace("<leaver/>", "<contribution/><leaver/>"),
    STORY.replace("<leaver/>", "<leaver/>gone"),
    STORY.replace("<leaver/>", "<leaver>gone</leaver>"),
    STORY.replace("<leaver/>", "<leaver> </leaver>"),
    STORY.replace("Tom", "<em>Tom</em>"),
]

# Documents with text and white space in all the ways of XML. Each has to be valid against its own DTD.
ODD = [
    "<a> </a>", "<a>\n<b> </b>\n</a>", "<a>&#32;</a>", "<a><b/>&#32;</a>", "<a>&#38;</a>", "<a><b>&lt;</b></a>",
    "<a><![CDATA[]]></a>", "<a><b/><![CDATA[ ]]></a>", "<a><b><![CDATA[x]]></b></a>",
    "<a><!-- c --> </a>", "<a><b/><!-- c --></a>", "<a><b/><a> </a><a><?p c?></a></a>",
    "<a><b><!-- c --></b><b>x</b></a>",
    "<!DOCTYPE a [<!ENTITY e ''>]><a>&e;</a>", "<!DOCTYPE a [<!ENTITY e ' '>]><a><b/>&e;</a>",
    "<!DOCTYPE a [<!ENTITY e '&#38;#32;'>]><a><b/>&e;</a>", "<!DOCTYPE a [<!ENTITY e '<b/>x'>]><a>&e;<c/></a>",
    "<!DOCTYPE a [<!ENTITY e '<!-- c -->'>]><a><b>&e;</b></a>",
]
# Documents with white space that comes through entities, each with a line that its DTD must have: no text there.
BLANK_ENTITIES = {
    '<!DOCTYPE p [<!ENTITY row "<row> <a/> <b>1</b> </row>">]><p>&row;&row;</p>': "<!ELEMENT row (a,b)>",
    '<!DOCTYPE a [<!ENTITY sp " ">]><a><b><c/>&sp;</b></a>': "<!ELEMENT b (c)>",
    '<!DOCTYPE a [<!ENTITY sp "&#32;">]><a><b><c/>&sp;</b></a>': "<!ELEMENT b (c)>",
}

# What a model allows: the names of the children, each with a space behind it, and the most content beside them, one of
# those of tools/book.py.
Model = namedtuple("Model", "children content")


# ---- documents

def some_shapes(chance, names):
    """For each name the child lists of its elements, how often one has text, and whether its white space is kept."""
    shapes = {}
    for name in names:
        lists = [[chance.choice(names[1:]) for _ in range(chance.randrange(5))] for _ in range(chance.randrange(1, 4))]
        often = chance.choice([0, 0, 0, 0.4, 1])
        shapes[name] = lists if chance.random() < 0.7 else [[]], often, chance.random() < 0.4
    return shapes


def random_document(chance, names, shapes):
    """A document whose elements depend on the element's name, so that models are more than one starred group."""
    def element(name, depth):
        lists, often, spaced = shapes[name]
        parts = [element(c, depth + 1) for c in (chance.choice(lists) if depth < 4 else [])]
        if chance.random() < often:
            text = chance.choice(["x", " x ", "&lt;", "<![CDATA[x]]>", "<!-- c -->x", "\u00e9"])
            parts.insert(chance.randrange(len(parts) + 1), text)
        elif spaced and (parts or chance.random() < 0.5):
            parts.insert(chance.randrange(len(parts) + 1), chance.choice([" ", "\n", "\t\n"]))
        return f"<{name}>" + "".join(parts) + f"</{name}>"

    return element(names[0], 0)


def changed(chance, document, names):
    """The document with a child put in, taken out or doubled, or with text or white space put in or taken out."""
    leaf, text, gap = r"<(\w+)>[^<]*</\1>", r"(?<=>)[^<]+(?=<)", r"(?<=>)(?=<)"
    pattern, put = chance.choice([
        (leaf, lambda m: ""),
        (leaf, lambda m: m.group() * 2),
        (leaf, lambda m: m.group() + f"<{chance.choice(names)}/>"),
        (text, lambda m: ""),
        (gap, lambda m: "x"),
        (gap, lambda m: " "),
        (gap, lambda m: f"<{chance.choice(names)}/>"),
    ])
    found = [m for m in re.finditer(pattern, document) if m.start() > 0]
    if not found:
        return document
    m = chance.choice(found)
    return document[:m.start()] + put(m) + document[m.end():]


# ---- what the printed models say

def models_of(dtd):
    models = {}
    for line in dtd.splitlines():
        declaration = re.fullmatch(r"<!ELEMENT (\S+) (.*)>", line)
        if declaration is None:
            sys.exit(f"xmllint_check: this line is no declaration: {line}")
        parent, model = declaration.groups()
        content = tool.TEXT if "#PCDATA" in model else tool.NOTHING if model == "EMPTY" else tool.BLANK
        pattern = "" if model == "EMPTY" else re.sub(r"\(#PCDATA\|?", "(", model)
        pattern = re.sub(r"[\w.-]+", lambda m: "(?:" + re.escape(m.group()) + " )", pattern).replace(",", "")
        models[parent] = Model(re.compile(pattern), content)
    return models


def allows(model, content, children):
    """Whether a model, or None, allows an element with this content and these children."""
    return bool(model and content <= model.content and model.children.fullmatch("".join(c + " " for c in children)))


def blocks_of(documents):
    return [b for document in documents for b in tool.Document("a document").read(document.encode()).blocks]


def matches(document, models):
    """Whether the model of every element allows it."""
    return all(allows(models.get(parent.decode()), content, [c.decode() for c in children])
               for parent, content, children in blocks_of([document]))


# ---- what xmllint and VERDICT say

def valid(dtd_file, document, folder):
    file = folder / "document.xml"
    file.write_text(document)
    command = ["xmllint", "--noout", "--nonet", "--dtdvalid", str(dtd_file), str(file)]
    done = subprocess.run(command, capture_output=True, text=True)
    # 0 is valid and 3 not valid; a DTD that is not well formed, or that declares a name twice, is neither.
    if done.returncode not in (0, 3) or (done.returncode == 0 and done.stderr):
        sys.exit(f"xmllint_check: xmllint ended with {done.returncode}: {done.stderr.strip()}\n"
                 f"{dtd_file.read_text()}\n{document}")
    return done.returncode == 0


def accepted(verdict, sample, blocks, folder):
    """What VERDICT says of these blocks. Both books have the same names, since one block more uses all of them."""
    common = ALL_NAMES, 0, tuple(sorted(tool.used_in(sample + blocks)))
    (folder / "sample.book").write_bytes(tool.book_of(sample + [common]))
    (folder / "other.book").write_bytes(tool.book_of(blocks + [common]))
    command = [*verdict, str(folder / "sample.book"), str(folder / "other.book")]
    done = subprocess.run(command, capture_output=True, text=True)
    if done.stdout not in ("yes\n", "no\n"):
        sys.exit(f"xmllint_check: {verdict[0]} ended with status {done.returncode}: {done.stderr}")
    return done.stdout == "yes\n"


# ---- the checks

def printed(program, book, folder):
    """The DTD that PROGRAM prints, and its file."""
    done = subprocess.run([program], input=book, capture_output=True)
    if done.returncode != 0:
        sys.exit(f"xmllint_check: {program} ended with status {done.returncode}")
    dtd_file = folder / "printed.dtd"
    dtd_file.write_bytes(done.stdout)
    return done.stdout.decode(), dtd_file


def check(program, verdict, documents, others, folder, line=""):
    """How many documents were compared, of which so many are not valid; the DTD must have this line."""
    holders = tool.with_children(blocks_of(documents))
    sample = tool.with_text(blocks_of(documents), holders)
    dtd, dtd_file = printed(program, tool.book_of(sample), folder)
    if line not in dtd:
        sys.exit(f"xmllint_check: the DTD does not have {line}\n{dtd}\n{documents}")
    models = models_of(dtd)
    turned_away = 0
    for document in documents + others:
        def fail(what):
            sys.exit(f"xmllint_check: {what} (seed {SEED})\n{dtd}\n{document}")
        ours, theirs = matches(document, models), valid(dtd_file, document, folder)
        if document in documents and not theirs:
            fail("a sample document is not valid against its own DTD")
        if ours != theirs:
            fail(f"valid is {theirs} for xmllint and {ours} by the printed models")
        # As in the sample, white space is text only in elements that have no children there.
        blocks = tool.with_text(blocks_of([document]), holders)
        if verdict and accepted(verdict, sample, blocks, folder) != theirs:
            fail(f"valid is {theirs} for xmllint and {not theirs} by the calls")
        turned_away += not theirs
    return len(documents + others), turned_away


def check_faults(program, verdict, folder):
    """The story of the README with each of the faults alone: none of them is valid."""
    found = check(program, verdict, [STORY], FAULTS, folder)
    if found != (1 + len(FAULTS), len(FAULTS)):
        sys.exit("xmllint_check: a document with a contribution and a leaver, or text where there was none, is valid")
    return found


def not_valid(declaration, files, folder):
    """Which of the files are not valid against a declaration of PARENT, in one run of xmllint; children are EMPTY."""
    dtd = declaration + b"\n" + "".join(f"<!ELEMENT {c} EMPTY>\n" for c in CHILDREN).encode()
    (folder / "form.dtd").write_bytes(dtd)
    command = ["xmllint", "--noout", "--nonet", "--dtdvalid", "form.dtd", *files]
    done = subprocess.run(command, cwd=folder, capture_output=True, text=True, errors="replace")
    found = re.findall(r"(?m)^Document (.*) does not validate against form.dtd$", done.stderr)
    if done.returncode != (3 if found else 0) or (done.stderr and not found):
        sys.exit(f"xmllint_check: xmllint ended with {done.returncode}: {done.stderr.strip()}\n{dtd}")
    return set(found)


def form_files(folder):
    """Documents with each short word, bare, with white space and with text: each file with its content and its word."""
    files = {}
    for n in range(LONGEST_WORD + 1):
        for word in itertools.product(CHILDREN, repeat=n):
            for content, put in ((tool.NOTHING, ""), (tool.BLANK, "\n"), (tool.TEXT, "x")):
                inside = [f"<{c}/>" for c in word]
                inside.insert(n // 2, put)
                file = f"word-{''.join(word)}-{content}.xml"
                (folder / file).write_text(f"<{PARENT}>" + "".join(inside) + f"</{PARENT}>")
                files[file] = content, word
    return files


def check_forms(folder):
    """How many declarations were compared with their house spelling, and with how many documents each."""
    # What is 13 only because our reader takes less than XML allows is not compared: (a,b)+, ((a|b))*, ((a))?, (a?)*,
    # ((a?),b), ((a)|b) or (((a))). These are models to libxml2, and the reader has no answer for them.
    files = form_files(folder)
    due = {}
    for text, _ in reading.FORMS:
        answer = reading.read(text)
        if answer.number != 0:
            sys.exit(f"xmllint_check: {text} is refused with {answer.number}")
        house = reading.house(answer)
        if house not in due:
            due[house] = not_valid(house, files, folder)
            model = models_of(house.decode())[PARENT]
            other = due[house] ^ {file for file, element in files.items() if not allows(model, *element)}
            if other:
                sys.exit(f"xmllint_check: valid is not the same for xmllint and by the model {house}: {sorted(other)}")
        other = due[house] ^ not_valid(text, files, folder)
        if other:
            sys.exit(f"xmllint_check: valid is not the same for xmllint by {text} and by {house}: {sorted(other)}")
    return len(reading.FORMS), len(files)


def random_sets(chance, feeds):
    """Documents of one feed, and changed ones."""
    for _ in range(feeds):
        names = ["root"] + [f"n{i}" for i in range(chance.randrange(2, 8))]
        shapes = some_shapes(chance, names)
        documents = [random_document(chance, names, shapes) for _ in range(chance.randrange(1, 4))]
        yield documents, [changed(chance, chance.choice(documents), names[1:]) for _ in range(CHANGES)]


def main():
    if len(sys.argv) < 2:
        sys.exit("usage: xmllint_check.py PROGRAM [VERDICT [ARGUMENT..]]")
    program, verdict = sys.argv[1], sys.argv[2:]
    if shutil.which("xmllint") is None:
        print("skipped: xmllint (libxml2) is not installed, so no other reader has read the printed DTDs")
        return
    samples = [(ROOT / "samples" / f).read_text() for f in ("march.xml", "april.xml")]
    feeds = int(os.environ.get("XMLLINT_FEEDS", FEEDS))
    with tempfile.TemporaryDirectory() as name:
        folder = pathlib.Path(name)
        sets = [(samples, []), *(([document], []) for document in ODD), *random_sets(random.Random(SEED), feeds)]
        counts = [check_faults(program, verdict, folder)]
        counts += [check(program, verdict, *one, folder) for one in sets]
        counts += [check(program, verdict, [one], [], folder, line) for one, line in BLANK_ENTITIES.items()]
        forms, documents = check_forms(folder)
    total, away = map(sum, zip(*counts))
    print(f"xmllint: {len(counts)} DTDs read, {total} documents compared, {away} of them not valid (seed {SEED})")
    print(f"xmllint: {forms} declarations are read as their house spelling is, each with {documents} documents")


if __name__ == "__main__":
    main()
