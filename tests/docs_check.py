#!/usr/bin/env python3
"""Checks what README.md, CONTRIBUTING.md and docs/ say against the repository.

  docs_check.py            all checks; where a program is not built, those that run it are skipped, with a note
  docs_check.py --static   all checks but those that run the programs dtd and test_reading, in their folders out/
  docs_check.py --counts   rewrites the line counts of docs/TRUST.md, and checks nothing

The checks:
- no line has more than 120 characters, except table rows and code blocks;
- every path of the repository that is named exists, unless it has a placeholder such as NAME or *, and is not below a
  folder `out` of a crate, which only a build leaves;
- names that are cited with a file of a crate are defined there: `a`, `b` in `crates/..`, or `crates/..`: `a`, `b`;
  docs/landings/ keeps the spelling of its time, `isName` or `name-law` for what is now `is_name` or `name_law`;
- the map of README.md has a row for each group of crates.txt, with its sentence and its crates, and no other row;
- in docs/TRUST.md, a table row with a file and a number has the file's number of lines, and a row of a call and its
  promise is right: the contract is that promise alone, and so it is of the function that exports the call;
- in docs/FORMAT.md, the offsets in each code block `hex` are right, and dtd prints for its bytes the next code block
  `dtd`; for the bytes in a table with a column "`dtd` prints" it prints what the table says;
- in docs/FORMAT.md, test_reading, whose book has the names EMPTY, a, b, c and d, answers for the texts in a table with
  a column "Result" what the table says. It takes lines, in which the byte 1F stands for a line feed.

Each finding is a line FILE:LINE: message. The exit status is 1 where there is one, and, but for --static, where one of
the two programs is not built.
"""
import itertools
import pathlib
import re
import subprocess
import sys
from collections import namedtuple

ROOT = pathlib.Path(__file__).resolve().parent.parent
DTD, READER = (ROOT / "crates" / name / "out" / name for name in ("dtd", "test_reading"))
WIDEST = 120

# A line of a document; `block` has the number of the first line of the code block that it is in, and what follows ```.
Line = namedtuple("Line", "file number text block")

PATH = re.compile(r"(?<![\w./-])(?:(?:\.ci|crates|docs|include|rust|samples|tests|tools)/[\w.*/-]*"
                  r"|(?:README|CONTRIBUTING)\.md|crates\.txt)")
PLACEHOLDER = re.compile(r"\*|\.\.\.|(?:^|/)(?:[A-Z]+(?:/|$)|(?:NAME|FILE|LABEL|X|Y)\b)")
BUILT = "rust/target"
LEFT_BY_BUILD = re.compile(r"crates/\w+/out(?:/|$)")
LINK = re.compile(r"\[[^\]]*\]\(([^)\s]+)\)")

FILE = r"`?(?P<file>crates/[\w./-]+\.(?:antt|rt))`?"
NAMES = r"(?P<names>`[^`\s/]+`(?:(?:, | and |, and )`[^`\s/]+`)*)"
FILE_THEN_NAMES = re.compile(FILE + r"(?:: | the \w+ )" + NAMES)
NAMES_THEN_FILE = re.compile(NAMES + r"(?:\s*[,|:(]\s*| in | of | from )" + FILE)

# How a text of docs/FORMAT.md names a byte that is not shown.
BYTE_NAMES = {"a space": " ", "a tab": "\t", "a line feed": "\n", "a carriage return": "\r", "a form feed": "\f",
              "a vertical tab": "\v", "U+0085": "\x85", "U+00A0": "\xa0"}
BYTES = r"[0-9a-f]{2}(?: [0-9a-f]{2})*"
SUM = re.compile(r'Sum of (all rows|the rows without "read already"|the rows down to ([\w.]+)): ([\d,]+)')
# The crate with the calls for C, and the one that exports each of them with the same contract.
EXPORTED = "crates/curlewsong/", "crates/curlewsong_c/"
PROMISE = re.compile(r"\| `(\w+)` in (crates/\S+\.rt) \| `(\w+)` in crates/\S+\.antt \|$")
COUNT = re.compile(r"(\| *`?)(crates/[\w./-]+)(`? *\|(?:[^|\n]*\|)*? *)(\d[\d,]*)( *\|)")


def documents():
    top = [ROOT / "README.md", ROOT / "CONTRIBUTING.md"]
    return [file for file in top + sorted((ROOT / "docs").rglob("*.md")) if file.exists()]


def lines_of(file):
    block = None
    for number, text in enumerate(file.read_text().splitlines(), 1):
        fence = re.match(r"\s*```(.*)", text)
        opens = fence and block is None
        block = (number, fence.group(1).strip()) if opens else block
        yield Line(file, number, text, block)
        block = None if fence and not opens else block


def finding(line, message):
    return f"{line.file.relative_to(ROOT)}:{line.number}: {message}"


def prose(lines):
    return [line for line in lines if line.block is None]


def cells(text):
    """The cells of a table row. A bar inside a cell is written with a backslash before it."""
    return [cell.strip() for cell in re.split(r"(?<!\\)\|", text.strip().strip("|"))]


def rows_under(heading, lines):
    """Each row of the tables that have `heading` in the head of a column: its line, all cells, and that column's."""
    place, before = None, ""
    for line in prose(lines):
        if not line.text.startswith("|"):
            place = None
        elif re.fullmatch(r"[|\s:-]+", line.text):
            place = next((i for i, cell in enumerate(cells(before)) if heading in cell.lower()), None)
        elif place is not None:
            row = cells(line.text)
            yield line, row, row[place] if place < len(row) else ""
        before = line.text


def wide_lines(lines):
    for line in prose(lines):
        if len(line.text) > WIDEST and not line.text.startswith("|"):
            yield finding(line, f"{len(line.text)} characters, which is more than {WIDEST}")


def missing_paths(lines):
    for line in prose(lines):
        for path in (match.group().rstrip(".-") for match in PATH.finditer(line.text)):
            if PLACEHOLDER.search(path) or path.startswith(BUILT):
                continue
            if LEFT_BY_BUILD.match(path) or not (ROOT / path).exists():
                yield finding(line, f"{path} does not exist in a fresh clone")


def dead_links(lines):
    for line in prose(lines):
        for target in LINK.findall(line.text):
            path = target.split("#")[0]
            if "://" not in target and not (line.file.parent / path).exists():
                yield finding(line, f"the link to {target} leads nowhere")


def defined(file):
    """The names that a file defines: functions, types, fields, variants, theorems."""
    text = re.sub(r"(?m)(//|--).*$", "", file.read_text())
    if file.suffix == ".antt":
        heads = [re.split(r"\s:(?=\s|$)", line)[0] for line in text.splitlines() if re.search(r"\s:(?=\s|$)", line)]
        names = [re.split(r"[({]", head)[0] for head in heads if not re.search(r"[=λ]", head)]
        return set(" ".join(names + re.findall(r"\bmodule (\S+)", text)).split())
    names = re.findall(r"\b(?:fn|struct|enum|const|mod) (\w+)", text)
    for body in re.findall(r"\b(?:struct|enum) \w+[^{;]*\{(.*?)\n\}", text, re.S):
        names += re.findall(r"(?m)^\s*(?:pub )?(\w+)\s*[:,(]", body)
    return set(names)


def citations(text):
    """Each name and the file that is said to have it."""
    rest = FILE_THEN_NAMES.sub("", text)
    for match in itertools.chain(FILE_THEN_NAMES.finditer(text), NAMES_THEN_FILE.finditer(rest)):
        yield from ((name, match["file"]) for name in re.findall(r"`([^`]+)`", match["names"]))


def paragraphs(lines):
    """Lines that belong together, since a citation may go over a line's end; a table row is a paragraph of its own."""
    own = (line.number if line.text.startswith("|") else 0 if line.text.strip() else -1 for line in lines)
    for key, group in itertools.groupby(zip(own, lines), lambda pair: (pair[0], pair[1].block)):
        if key[0] >= 0 and key[1] is None:
            yield [line for _, line in group]


def cited(lines):
    """Each citation of a document: its line, the name and the file."""
    for paragraph in paragraphs(lines):
        for name, path in citations(" ".join(line.text.strip() for line in paragraph)):
            yield next(line for line in paragraph if f"`{name}`" in line.text), name, path


def spelled_now(name):
    """A name of docs/landings/ in today's spelling; types keep theirs."""
    if name[:1].isupper():
        return name
    return re.sub(r"(?<=[a-z0-9])[A-Z]", lambda capital: "_" + capital.group().lower(), name).replace("-", "_")


def wrong_citations(lines):
    for line, name, path in cited(lines):
        crate_or_file = path.startswith(f"crates/{name}/") or re.search(r"\.(antt|rt|md)$", name)
        if not crate_or_file and (ROOT / path).exists():
            parts = name.split("::")[-1].split(".")
            if line.file.parent.name == "landings":
                parts = map(spelled_now, parts)
            if not set(parts) <= defined(ROOT / path):
                yield finding(line, f"`{name}` is not defined in {path}")


def map_rows():
    """The rows of the map in README.md, one for each group of crates.txt; a crate without a function is in italics."""
    rows, kind = [], ""
    for line in (ROOT / "crates.txt").read_text().splitlines():
        if line.startswith("## "):
            group, _, said = line[3:].partition(": ")
            rows.append((group, said, []))
        elif line.startswith("#"):
            kind = "*" if line.endswith("(no function).") else ""
        elif line:
            rows[-1][2].append(f"{kind}`{re.split('[: ]', line)[0]}`{kind}")
    return [f"| {group} | {said} | {', '.join(crates)} |" for group, said, crates in rows]


def wrong_crates(lines):
    """The map of README.md beside crates.txt."""
    heads = [line for line in prose(lines) if line.text.startswith("| Layer |")]
    if len(heads) != 1:
        yield finding(lines[0], "there is not one table with a first column 'Layer'")
        return
    table = [line for line in lines if line.number > heads[0].number + 1]
    rows = list(itertools.takewhile(lambda line: line.text.startswith("|"), table))
    right = map_rows()
    yield from (finding(line, "not a row of crates.txt") for line in rows if line.text not in right)
    missing = [row for row in right if row not in [line.text for line in rows]]
    yield from (finding(heads[0], f"missing row: {row}") for row in missing)
    if not missing and [line.text for line in rows] != right:
        yield finding(heads[0], "the rows are not in the order of crates.txt, or one is there twice")


def line_count(path):
    return (ROOT / path).read_bytes().count(b"\n") if (ROOT / path).is_file() else None


def wrong_counts(lines):
    for line in prose(lines):
        for path, number in ((row.group(2), row.group(4)) for row in COUNT.finditer(line.text)):
            if line_count(path) not in (None, int(number.replace(",", ""))):
                yield finding(line, f"{path} has {line_count(path)} lines, not {number}: "
                                    "run python3 tests/docs_check.py --counts")


def right_sums(lines):
    """Each text that has the sum of the rows above it, since the last heading: its number, text and right text."""
    rows = []
    for number, text in enumerate(lines):
        if text.startswith("#"):
            rows = []
        rows += [(row.group(2), int(row.group(4).replace(",", "")), text) for row in COUNT.finditer(text)]

        def right(said):
            names = [path.rsplit("/", 1)[1] for path, _, _ in rows]
            upto = names.index(said.group(2)) + 1 if said.group(2) in names else len(rows)
            every = "without" not in said.group(1)
            new = [count for _, count, row in rows[:upto] if every or "read already" not in row]
            return f"Sum of {said.group(1)}: {sum(new):,}"
        if SUM.search(text):
            yield number, text, SUM.sub(right, text)


def wrong_sums(lines):
    for number, text, right in right_sums([line.text for line in lines]):
        if text != right:
            yield finding(lines[number], f"not the sum of the rows: {right}: run python3 tests/docs_check.py --counts")


def wrong_promises(lines):
    """Each row of a call and its promise: the contract requires nothing, and its one `ensures` has the promise. A call
    for C is looked at in both of its crates."""
    for line in prose(lines):
        row = PROMISE.match(line.text)
        if not row:
            continue
        call, named, promise = row.groups()
        for path in dict.fromkeys((named, named.replace(*EXPORTED))):
            code = (ROOT / path).read_text() if (ROOT / path).is_file() else ""
            contract = re.search(rf"(?ms)^pub (?:extern \"C\" )?fn {call}\(.*?^{{", code)
            found = re.findall(r"\b(requires|ensures)\b", contract.group()) if contract else []
            if found != ["ensures"] or not re.search(rf"ensures \{{ {promise} ", contract.group()):
                yield finding(line, f"the contract of {call} in {path} is not `ensures` {promise} alone")


def write_counts(file):
    def right(row):
        count = line_count(row.group(2))
        return row.group() if count is None else row.expand(rf"\1\2\g<3>{count:,}\g<5>")
    lines = COUNT.sub(right, file.read_text()).split("\n")
    for number, _, text in list(right_sums(lines)):
        lines[number] = text
    file.write_text("\n".join(lines))


def books(lines, findings):
    """Each book of the page with what dtd prints for it, as it is said: line, bytes, output."""
    book = None
    for block, group in itertools.groupby(lines, lambda line: line.block):
        first, *body = list(group)
        if block and block[1] == "hex":
            book = first, hex_bytes(body[:-1], findings)
        elif block and block[1] == "dtd" and book:
            yield *book, "".join(line.text + "\n" for line in body[:-1])
            book = None
    if book:
        findings.append(finding(book[0], "no code block `dtd` follows this code block `hex`"))
    for line, row, said in rows_under("`dtd` prints", lines):
        if re.fullmatch(f"`{BYTES}`", row[0]):
            yield line, bytes.fromhex(row[0].strip("`")), said.replace("\\|", "|").strip("`") + "\n"


def hex_bytes(lines, findings):
    """The bytes of a code block `hex`."""
    book = b""
    for line in lines:
        row = re.fullmatch(rf"([0-9a-f]+)  ({BYTES})  ; .*", line.text)
        if not row:
            findings.append(finding(line, "not of the form: offset, two spaces, bytes, two spaces, ; comment"))
        elif int(row.group(1), 16) != len(book):
            findings.append(finding(line, f"the offset is {row.group(1)}, and {len(book):04x} bytes come before it"))
        book += bytes.fromhex(row.group(2)) if row else b""
    return book


def wrong_output(line, book, said):
    printed = subprocess.run([DTD], input=book, capture_output=True, timeout=60).stdout.decode()
    if printed != said:
        yield finding(line, f"dtd prints {printed!r} for this book, and the page has {said!r}")


def texts_of(cell):
    """The texts that a cell describes, such as: `x`, `y`; or: a space and `x`; or: `(X)`, X a name of 33 letters."""
    cell, _, letters = cell.partition(", X a name of ")
    for text in re.split(", (?=`)", cell.replace("\\|", "|")):
        text = "".join(BYTE_NAMES.get(piece, piece.strip("`")) for piece in text.split(" and "))
        yield text.replace("X", "X" * int(letters.split()[0])) if letters else text


def texts(lines):
    """Each text of the page with the number that it is read with, 0 for "read", as it is said: line, text, number."""
    for line, row, said in rows_under("result", lines):
        if re.fullmatch(r"read|\d+", said):
            yield from ((line, text, 0 if said == "read" else int(said)) for text in texts_of(row[0]))


def wrong_readings(cases):
    """The program prints two lines of its own, then one for each text that it is given, with the number in front."""
    given = "".join(text.replace("\n", "\x1f") + "\n" for _, text, _ in cases).encode()
    printed = subprocess.run([READER], input=given, capture_output=True, timeout=60).stdout.decode().split("\n")
    for (line, text, said), answer in zip(cases, printed[2:] + [""] * len(cases)):
        if answer.split(" ")[0] != str(said):
            yield finding(line, f"test_reading prints {answer!r} for {text!r}, and the page has {said or 'read'}")


def check_format(lines, programs, findings):
    """Adds what is found in docs/FORMAT.md, and returns how many books and texts were given to programs."""
    of_books, of_texts = list(books(lines, findings)), list(texts(lines))
    for case in of_books if DTD in programs else []:
        findings += wrong_output(*case)
    findings += wrong_readings(of_texts) if READER in programs else []
    return len(of_books) * (DTD in programs), len(of_texts) * (READER in programs)


def check(programs):
    findings, ran, names = [], (0, 0), 0
    for file in documents():
        lines = list(lines_of(file))
        checks = [wide_lines, missing_paths, dead_links, wrong_citations]
        of_file = {"README.md": [wrong_crates], "TRUST.md": [wrong_counts, wrong_sums, wrong_promises]}
        checks += of_file.get(file.name, [])
        found = [one for each in checks for one in each(lines)]
        if file.name == "FORMAT.md":
            ran = check_format(lines, programs, found)
        findings += sorted(found, key=lambda one: int(one.split(":")[1]))
        names += len(list(cited(lines)))
    print(*findings, sep="\n", end="\n" if findings else "")
    print(f"docs: {len(documents())} files, {names} citations, {ran[0]} books given to dtd, "
          f"{ran[1]} texts given to test_reading, {len(findings)} findings")
    return 1 if findings else 0


def main(arguments):
    if arguments == ["--counts"]:
        return write_counts(ROOT / "docs" / "TRUST.md")
    if arguments not in ([], ["--static"]):
        return __doc__
    wanted = [] if arguments else [DTD, READER]
    for program in wanted:
        if not program.exists():
            print(f"docs: {program.relative_to(ROOT)} is not built, so that what it prints is not checked; "
                  f"rt run builds it, in crates/{program.name}")
    built = [program for program in wanted if program.exists()]
    return check(built) or int(built != wanted)


if __name__ == "__main__":
    sys.exit(main(sys.argv[1:]))
