#!/usr/bin/env python3
"""tools/document.py with the library, and its verdicts against libxml2.

Usage: python3 tests/document_check.py

First the tool's commands, with documents on both sides of the limits. Then documents are made by chance from the models
of DTDs, most of them are damaged, and the tool gets them together with the DTD. xmllint must find valid exactly those
of which the verdict is yes. Among them are text, white space, comments, processing instructions and CDATA sections in
every place, unknown and undeclared elements, words of more than 255 names, and elements at depth 32. One part goes by
the models of a book, and xmllint by the DTD of that book.

Not compared: white space that is written as a character reference, such as &#32;, where a model has names and no text.
libxml2 allows it; XML 1.0 (section 3) and the tool do not. Neither is a document with standalone="yes", of which
libxml2 asks more.

It fails where one of the two outcomes is rare. Without xmllint the comparison is skipped, and says so.
"""
import collections
import pathlib
import random
import re
import shutil
import subprocess
import sys
import tempfile

ROOT = pathlib.Path(__file__).resolve().parent.parent
TOOL = ROOT / "tools" / "document.py"
import xmllint_check as xmllint  # noqa: E402

SEED = 20261118
FEEDS = 8
DOCUMENTS = 60  # of each feed
LEAST_SHARE = 0.3  # of each outcome

SAMPLES = ROOT / "samples"
SPACES = [" ", "\n", "\t\r\n "]
REMARKS = ["<!--c-->", "<?p i?>", " <!-- x -->\n"]
TEXTS = ["x", " x ", "&amp;", "x&#32;", "\u00e9", "<![CDATA[]]>", "<![CDATA[ ]]>", "<![CDATA[<x>]]>"]
UNKNOWN = "unknown"  # no DTD has this name


def fail(message):
    sys.exit(f"document_check: {message}")


def run(folder, *arguments):
    """Status, output and messages of the tool."""
    done = subprocess.run([sys.executable, TOOL, *arguments], cwd=folder, capture_output=True, text=True)
    return done.returncode, done.stdout, done.stderr


def expect(folder, arguments, status, out, said):
    """Fails unless the tool ends with this status, prints what a pattern matches, and says one such message or none."""
    found = run(folder, *arguments.split())
    message = f"document.py: {said}\n" if said else ""
    if found[0] != status or not re.fullmatch(out, found[1]) or not re.fullmatch(message, found[2]):
        fail(f"document.py {arguments}: {found}; should be {status}, {out}, {said}")


# ---- the commands, with the library


def line_of_names(count):
    """A DTD in which each of so many names may have the next one for a child."""
    some = "".join(f"<!ELEMENT n{i:02} (n{i + 1:02}?)>\n" for i in range(count - 1))
    return some + f"<!ELEMENT n{count - 1:02} EMPTY>"


FILES = {
    "nested.dtd": "<!ELEMENT n (n?)>",
    "32.xml": "<n>" * 32 + "</n>" * 32,
    "33.xml": "<n>" * 33 + "</n>" * 33,
    "deep.xml": "<n>" * 100000 + "</n>" * 100000,
    "wide.dtd": "<!ELEMENT w (v*)><!ELEMENT v EMPTY>",
    "full.xml": "<w>" + "<v/>" * 14999 + "</w>",
    "over.xml": "<w>\n" + "<v/>" * 15000 + "</w>",
    "last.xml": "<w>\n" + "<v/>" * 14998 + "<w/></w>",
    "63.dtd": line_of_names(63),
    "64.dtd": line_of_names(64),
    "65.dtd": line_of_names(65),
    "known.xml": "<n00><n01/></n00>",
    "other.xml": "<n00>\n<n01><other/></n01><others/></n00>",
    "broken.xml": "<n00>\n <n01>",
    "any.dtd": "<!ELEMENT n00 EMPTY>\n<!ELEMENT n01 ANY>",
    "twice.dtd": "<!ELEMENT n00 EMPTY>\n<!-- c --><!ELEMENT n00 (n01)>",
    "repeat.dtd": "<!ELEMENT n00 (n01,n01)>",
    "colon.dtd": "<!ELEMENT n00 (p:n01)>",
    "long.dtd": f"<!ELEMENT n00 ({'n' * 33})>",
    "dashes.dtd": "<!ELEMENT n00 EMPTY>\n<!-- a -- b -->",
    "empty.dtd": "<!ELEMENT n00 (n01)><!ELEMENT n01 EMPTY>",
    "filled.xml": "<n00>\n<n01><!-- c --></n01></n00>",
    "noted.xml": "<n00 k='v'><n01/></n00>",
    "deeper.xml": "<other>" + "<n00>" * 33 + "</n00>" * 33 + "</other>",
    "short.book": "\1\0\1a\1\0\0\0",
    "unused.book": "\2\0\1a\1b\1\0\0\0\0",
}


def check_commands(folder):
    for name, text in FILES.items():
        (folder / name).write_text(text)
    valid, unlisted = "known.xml: valid\n", r"line 2: the element 'other' is not among the names"
    pairs = r"\(more than 30,000 pairs\)"
    for arguments, status, out, said in (
        ("check --dtd nested.dtd 32.xml", 0, "32.xml: valid\n", ""),
        ("check --dtd nested.dtd 32.xml 33.xml", 1,
         "32.xml: valid\n33.xml: refused 19: the document opens an element at depth 33\n", ""),
        ("check --dtd nested.dtd deep.xml", 1, rf"deep.xml: refused 1: .* {pairs}\n", ""),
        ("check --dtd wide.dtd full.xml over.xml", 1, rf"full.xml: valid\nover.xml: refused 1: .* {pairs}\n", ""),
        ("check --dtd 63.dtd over.xml deeper.xml", 1, rf"over.xml: refused 1: .* {pairs}\n"
         "deeper.xml: refused 19: the document opens an element at depth 33\n", ""),
        ("check --dtd empty.dtd filled.xml", 1,
         r"filled.xml: not valid \(line 2: the element 'n01' is EMPTY and has .* a comment, .* in it\)\n", ""),
        ("check --dtd wide.dtd last.xml", 1,
         r"last.xml: not valid \(line 1: the model of 'w' does not allow what is in it: (v ){12}\.\.\)\n", ""),
        ("check --dtd 63.dtd known.xml other.xml", 1, rf"{valid}other.xml: not valid \({unlisted}\)\n", ""),
        ("check --dtd 64.dtd known.xml other.xml", 1, rf"{valid}other.xml: refused 18: .* \({unlisted}\)\n", ""),
        ("check --dtd 65.dtd known.xml", 2, "", "65.dtd: 65 names are declared or used, and at most 64 can be"),
        ("check --dtd 64.dtd broken.xml known.xml", 2, valid,
         "broken.xml, line 2, column 7: not a well-formed XML document: .*"),
        ("check --dtd any.dtd known.xml", 2, "", "any.dtd, line 2: refused 13: .*: '<!ELEMENT n01 ANY>'"),
        ("check --dtd twice.dtd known.xml", 2, "", "twice.dtd, line 2: the element 'n00' is declared twice"),
        ("check --dtd repeat.dtd known.xml", 2, "", "repeat.dtd, line 1: refused 15: .*"),
        ("check --dtd colon.dtd known.xml", 2, "", "colon.dtd, line 1: refused 13: .*"),
        ("check --dtd long.dtd known.xml", 2, "", "long.dtd, line 1: refused 13: .*"),
        ("check --dtd dashes.dtd known.xml", 2, "", "dashes.dtd, line 2: '--' may be in a comment only .*"),
        ("check --dtd /dev/zero known.xml", 2, "", "/dev/zero: it has more than 100,000,000 bytes, .*"),
        ("check --dtd 64.dtd /dev/zero known.xml", 2, valid, "/dev/zero: it has more than 100,000,000 bytes, .*"),
        ("check --book /dev/zero known.xml", 2, "", "/dev/zero: refused 1: .*"),
        ("check --dtd - -", 2, "", "'-' is given more than once, .*"),
        ("check --book short.book known.xml", 2, "", "short.book: refused 2: .*"),
        ("check --book unused.book known.xml", 2, "", "unused.book: refused 17: .*"),
        ("pairs --dtd 63.dtd other.xml -o pairs", 0, "", f"note: other.xml, {unlisted}; it has the number 63"),
    ):
        expect(folder, arguments, status, out, said)
    if (folder / "pairs").read_bytes() != b"\0\0\0\1\0\x3f\1\x3f\1\1\0\x3f\1\x3f\1\0":
        fail("the pairs of other.xml are not those expected")
    check_full(folder)
    check_samples(folder)


def check_full(folder):
    """Verdicts that cannot be written have the status 2; messages that cannot be are dropped."""
    full = "No space left on device"
    for arguments, redirected, due in (
        ("check --dtd empty.dtd noted.xml", "2>/dev/full", (0, "noted.xml: valid\n", "")),
        ("check --dtd empty.dtd noted.xml none.xml", "2>/dev/full", (2, "noted.xml: valid\n", "")),
        ("check --dtd empty.dtd", "2>/dev/full", (2, "", "")),
        ("check --dtd empty.dtd known.xml", ">/dev/full", (2, "", f"document.py: standard output: {full}\n")),
        ("check --dtd empty.dtd other.xml", ">/dev/full", (2, "", f"document.py: standard output: {full}\n")),
        ("check --dtd empty.dtd other.xml", ">/dev/full 2>&1", (2, "", "")),
        ("check --dtd empty.dtd other.xml", ">&-", (2, "", "document.py: standard output is closed\n")),
    ):
        done = subprocess.run(["sh", "-c", f'"$@" {redirected}', "sh", sys.executable, TOOL, *arguments.split()],
                              cwd=folder, capture_output=True, text=True)
        found = done.returncode, done.stdout, done.stderr
        if found != due:
            fail(f"document.py {arguments} {redirected}: {found}; should be {due}")


def check_samples(folder):
    """The samples are valid by their book and by its DTD, and their pairs are the same."""
    files = [SAMPLES / "march.xml", SAMPLES / "april.xml"]
    for source in ("--book", SAMPLES / "feed.book"), ("--dtd", SAMPLES / "feed.dtd"):
        if run(folder, "check", *source, *files) != (0, "".join(f"{file}: valid\n" for file in files), ""):
            fail(f"a sample is not valid by {source[1]}")
        run(folder, "pairs", *source, files[0], "-o", "pairs" + source[0])
    if (folder / "pairs--book").read_bytes() != (folder / "pairs--dtd").read_bytes():
        fail("the pairs of a sample are not the same by its book and by its DTD")


# ---- documents by chance: an element is a list of its name and of what is in it, elements and strings

# A model: its factors, each the names and the mark, and whether text is allowed.
Model = collections.namedtuple("Model", "factors text")


def some_model(chance, name, names):
    """A model of one of the kinds, or None. What has to be there comes behind the name, so that elements end."""
    kind = chance.choice(["EMPTY", "text", "mixed", "none", "chain", "chain", "chain", "chain"])
    others = chance.sample(names, chance.randrange(1, min(5, len(names)) + 1))
    if kind == "none" and name != names[0] and chance.random() < 0.5:
        return None
    if kind == "mixed":
        return Model([(others, "*")], True)
    factors = []
    while kind == "chain" and others:
        group = [others.pop() for _ in range(chance.randrange(1, min(3, len(others)) + 1))]
        factors.append((group, chance.choice("?*" if min(group) <= name else ["", "", "?", "+", "*"])))
    return Model(factors, kind == "text")


def declaration(name, model):
    if model.text:
        text = "|".join(["#PCDATA", *(one for names, _ in model.factors for one in names)])
        return f"<!ELEMENT {name} ({text}){'*' if model.factors else ''}>\n"
    text = ",".join(f"({'|'.join(names)}){mark}" for names, mark in model.factors)
    return f"<!ELEMENT {name} {f'({text})' if text else 'EMPTY'}>\n"


def some_element(chance, models, name, depth):
    """An element that its model allows."""
    model = models.get(name)
    if model is None:
        return [name]
    inside = []
    for names, mark in model.factors:
        least, most = {"": (1, 1), "?": (0, 1), "+": (1, 3), "*": (0, 3)}[mark]
        count = chance.randint(least, most) if depth < 4 else least
        inside += [some_element(chance, models, chance.choice(names), depth + 1) for _ in range(count)]
    fits = SPACES + REMARKS + TEXTS if model.text else SPACES + REMARKS if model.factors else []
    for _ in range(chance.randrange(4) if fits else 0):
        inside.insert(chance.randrange(len(inside) + 1), chance.choice(fits))
    return [name, *inside]


def elements_in(element):
    found = [element]
    for one in found:
        found += [part for part in one[1:] if isinstance(part, list)]
    return found


def damage(chance, document, names):
    """Puts something into some element, takes something out, or moves, doubles or renames something."""
    element = chance.choice(elements_in(document))
    at = chance.randrange(1, len(element) + 1)
    change = chance.randrange(7)
    if change == 0:
        element.insert(at, chance.choice(SPACES + REMARKS + TEXTS))
    elif change == 1:
        element.insert(at, [chance.choice([*names, UNKNOWN])])
    elif change == 2:
        element[0] = chance.choice([*names, UNKNOWN])
    elif change == 3:
        element[1:] = chance.sample(element[1:], len(element) - 1)
    elif change == 4:
        del element[at:at + 1]
    elif change == 5:
        element[at:at] = element[at:at + 1]
    else:
        del element[1:]


def spelled(part):
    if isinstance(part, str):
        return part
    name, *inside = part
    return f"<{name}>{''.join(map(spelled, inside))}</{name}>" if inside else f"<{name}/>"


def random_feeds(chance):
    """DTDs, each with documents. One in three is as it was made, the others are damaged once or twice."""
    for _ in range(FEEDS):
        names = [f"n{i}" for i in range(chance.randrange(3, 10))]
        models = {name: some_model(chance, name, names) for name in names}
        dtd = "".join(declaration(name, model) for name, model in models.items() if model)
        documents = []
        for i in range(DOCUMENTS):
            document = some_element(chance, models, names[0] if i % 2 else chance.choice(names), 0)
            for _ in range(i % 3):
                damage(chance, document, names)
            documents.append(spelled(document))
        yield dtd, documents


# ---- documents by hand


def contents_feed():
    """Every kind of content alone, before and behind a child, in an element of each kind."""
    dtd = ("<!ELEMENT empty EMPTY><!ELEMENT list (leaf?)><!ELEMENT mixed (#PCDATA|leaf)*><!ELEMENT text (#PCDATA)>"
           "<!ELEMENT leaf EMPTY>")
    entities = ("<!ENTITY n ''><!ENTITY c '<!--c-->'><!ENTITY s ' '><!ENTITY r '&#38;#32;'><!ENTITY t 'x'>"
                "<!ENTITY l '<leaf/>'>")
    documents = []
    for name in ("empty", "list", "mixed", "text", UNKNOWN):
        for content in ["", *SPACES, *REMARKS, *TEXTS, "&n;", "&c;", "&s;", "&r;", "&t;", "&l;", "&#32;"]:
            if name == "list" and content in ("&#32;", "&r;"):
                continue
            for inside in (content, content + "<leaf/>", "<leaf/>" + content, content * 2):
                documents.append(f"<!DOCTYPE {name} [{entities}]><{name}>{inside}</{name}>")
    return dtd, documents


def deep_feed():
    """Elements at each depth up to 32, with and without a fault in the innermost."""
    dtd = "<!ELEMENT deep (deep?,leaf*)><!ELEMENT leaf (#PCDATA|deep)*>"
    documents = []
    for depth in (2, 3, 15, 30, 31, 32):
        for outer, inner in (("deep", "deep"), ("leaf", "deep"), ("leaf", "leaf")):
            for bottom in ("", "\n", "x", "<!--c-->"):
                tags = ([outer, inner] * 16)[:depth]
                documents.append("".join(f"<{tag}>" for tag in tags) + bottom
                                 + "".join(f"</{tag}>" for tag in reversed(tags)))
    return dtd, documents


def wide_feed(chance):
    """Words of 250 to 14,990 names, as they may be and with two names exchanged."""
    dtd = "<!ELEMENT wide (m+,(n|o)*,p?)>" + "".join(f"<!ELEMENT {name} EMPTY>" for name in "mnop")
    documents = []
    for size in (250, 254, 255, 256, 257, 300, 511, 512, 513, 1000, 14990):
        first = chance.randrange(1, size)
        word = ["m"] * first + [chance.choice("no") for _ in range(size - first - 1)] + ["p"]
        for _ in range(3):
            documents.append("<wide>" + "".join(f"<{name}/>" for name in word) + "</wide>")
            one, other = chance.randrange(size), chance.randrange(size)
            word[one], word[other] = word[other], word[one]
    return dtd, documents


def feed_documents(chance):
    """The samples, each changed in several ways."""
    documents = [(SAMPLES / file).read_text() for file in ("march.xml", "april.xml")]
    names = sorted(set(re.findall(r"<([a-z-]+)>", "".join(documents))))
    return [xmllint.changed(chance, chance.choice(documents), names) for _ in range(DOCUMENTS)]


# ---- the comparison


def verdicts(folder, source, files):
    """The files whose verdict is no. Every verdict is yes or no, and a no has a place."""
    status, out, said = run(folder, "check", *source, *files)
    found = re.findall(r"(.*): (?:valid|(not valid) \(line \d+: .*\))\n", out)
    if [file for file, _ in found] != files or status != int(any(no for _, no in found)):
        fail(f"document.py ended with {status}: {said}\n{out}")
    return {file for file, no in found if no}


def compare(folder, dtd, documents, source=("--dtd", "form.dtd")):
    """How many of the documents are valid, and how many are not, by both.

    `not_valid` writes the DTD to form.dtd, with declarations of a, b and c, which no document has.
    """
    files = []
    for i, document in enumerate(documents):
        files.append(f"{i}.xml")
        (folder / files[-1]).write_bytes(document.encode())
    theirs = xmllint.not_valid(dtd.encode(), files, folder)
    ours = verdicts(folder, source, files)
    for file in sorted(ours ^ theirs):
        fail(f"valid is {file not in theirs} for xmllint and {file not in ours} by the tool:\n{dtd}\n"
             + (folder / file).read_text())
    return len(files) - len(ours), len(ours)


def main():
    with tempfile.TemporaryDirectory() as name:
        folder = pathlib.Path(name)
        check_commands(folder)
        print("document.py: commands, limits and refusals are as expected")
        if shutil.which("xmllint") is None:
            print("skipped: xmllint (libxml2) is not installed, so no other reader has judged the documents")
            return
        chance = random.Random(SEED)
        feeds = [contents_feed(), deep_feed(), wide_feed(chance), *random_feeds(chance)]
        counts = [compare(folder, *feed) for feed in feeds]
        counts.append(compare(folder, (SAMPLES / "feed.dtd").read_text(), feed_documents(chance),
                              ("--book", SAMPLES / "feed.book")))
    valid, away = map(sum, zip(*counts))
    if min(valid, away) < LEAST_SHARE * (valid + away):
        fail(f"{valid} documents are valid and {away} are not: one of the two is rare")
    print(f"xmllint: {len(counts)} sets of models, {valid} documents valid and {away} not valid by both (seed {SEED})")


if __name__ == "__main__":
    main()
