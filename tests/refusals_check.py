#!/usr/bin/env python3
"""Compares each place that has the refusals' numbers, names or texts with one list.

The list is the enum `Refusal` in crates/refusal/src/lib.rt: above each variant there is a comment `// NUMBER: text.`
The text is one sentence that is true for every call that gives the number. Compared with the list are

- the numbers of the variants, in the code and in the definitions;
- the names in docs/REFUSALS.md;
- the texts, word for word, in the header, in Rust, in docs/REFUSALS.md and docs/FORMAT.md, those of a book's refusals
  in tools/book.py, and those of all others in tools/document.py.

Which call gives which numbers, and in which order, is compared with the fields of the records in
crates/demands/specs/Conditions.antt: in README.md, docs/REFUSALS.md, docs/FORMAT.md and the header.

Each finding is a line FILE:LINE: with what is there, and one with what should be there. The exit status is 1 where
there is one.
"""
import itertools
import pathlib
import re
import sys
from collections import namedtuple

from docs_check import lines_of, rows_under

ROOT = pathlib.Path(__file__).resolve().parent.parent
LIST = "crates/refusal/src/lib.rt"
TABLE = "crates/refusal/specs/Table.antt"
CONDITIONS = "crates/demands/specs/Conditions.antt"
STOPS = "crates/book/specs/Stops.antt"
HEADER = "include/curlewsong.h"

Refusal = namedtuple("Refusal", "number name text")

# A table of refusals: its file; how the line before it begins and the line after it, "" being an empty line; the
# pattern of a row, and what a row should be; which refusals it has: all of them, those of a book (`BookConditions`), all
# others, or those that `Stops` states of the bytes of a book.
Place = namedtuple("Place", "file start end row right kind")
ALL, OF_BOOK, NOT_OF_BOOK, OF_BYTES = range(4)

PLACES = [
    Place(LIST, "pub fn number(", "}", r"Refusal::\w+ => (?P<number>\d+),", "Refusal::{name} => {number},", ALL),
    Place(TABLE, "abbrev pub number_of :", "", r"number_of \w+ = (?P<number>\d+)", "number_of {name} = {number}", ALL),
    Place(CONDITIONS, "pub record BookConditions ", "", r"\(k ≡ (?P<number>\d+)\) ↔ Stops bytes \w+",
          "(k ≡ {number}) ↔ Stops bytes {name}", OF_BYTES),
    Place(HEADER, " * refusal: 0 where", " * Several conditions", r" \* +(?P<number>\d+)  .*",
          " *   {number:2}  {text}", ALL),
    Place("rust/curlewsong/src/lib.rs", "impl std::fmt::Display for Refusal", "}", r'(?P<number>\d+) => ".*",',
          '{number} => "{text}",', ALL),
    Place("tools/book.py", "REASONS = {", "}", r'(?P<number>\d+): ".*",', '{number}: "{text}",', OF_BOOK),
    Place("tools/document.py", "REASONS = {", "}", r'(?P<number>\d+): ".*",', '{number}: "{text}",', NOT_OF_BOOK),
    Place("docs/REFUSALS.md", "| number |", "", r"\| (?P<number>\d+) \|[^|]*\|[^|]*\|",
          "| {number} | `{name}` | {text} |", ALL),
    Place("docs/FORMAT.md", "| Number |", "", r"\| (?P<number>\d+) \|[^|]*\|", "| {number} | {text} |", ALL),
]

# Each call, and the program, with the record that has its conditions.
CALLS = {
    "accepts_word": "WordConditions",
    "accepts_document": "DocumentConditions",
    "put_model": "PutConditions",
    "within": "WithinConditions",
    "model_of_parent": "ModelConditions",
    "write_declaration": "WriteConditions",
    "write_from_sample": "SampleConditions",
    "write_dtd": "DtdConditions",
    "fill_models": "FillConditions",
    "read_declaration": "ReadConditions",
    "dtd": "ProgramConditions",
}

# What the records of the calls that take a book share.
SHARED = "BookConditions"

# The documents with a table of the calls and their numbers, and the head of the first column with numbers.
TABLES_OF_CALLS = {"README.md": "refusals", "docs/REFUSALS.md": "refusals", "docs/FORMAT.md": "first"}
WITHOUT_PROGRAM = ("README.md", HEADER)


def finding(file, line, said, right):
    return f"{file}:{line}: {said}\n    should be: {right}"


def part(root, file, start, end):
    """The lines, with their numbers, from the first that begins with `start` up to the next that begins with `end`."""
    lines = enumerate((root / file).read_text().splitlines(), 1)
    lines = list(itertools.dropwhile(lambda line: not line[1].startswith(start), lines))
    if not lines:
        sys.exit(f"{file}: no line begins with: {start}")
    inside = (lambda line: not line[1].startswith(end)) if end else (lambda line: line[1])
    return lines[:1] + list(itertools.takewhile(inside, lines[1:]))


def the_list(root):
    """The refusals in the order of the enum. Their numbers are 1, 2 and so on."""
    _, *lines = part(root, LIST, "pub enum Refusal {", "}")
    refusals = []
    for (line, comment), (_, variant) in itertools.zip_longest(lines[::2], lines[1::2], fillvalue=(0, "")):
        number = len(refusals) + 1
        row = re.fullmatch(rf" +// {number}: (.+)\.\n +(\w+),", f"{comment}\n{variant}")
        if not row:
            sys.exit(finding(LIST, line, comment.strip(), f"// {number}: text. (and the variant on the next line)"))
        refusals.append(Refusal(number, row.group(2), row.group(1)))
    return refusals


def wrong_rows(root, place, refusals):
    """What differs in a table of refusals from the list."""
    lines = part(root, place.file, place.start, place.end)
    missing = {one.number: place.right.format(**one._asdict()) for one in refusals}
    for line, text in lines:
        row = re.search(place.row, text)
        if row:
            right = missing.pop(int(row["number"]), "no such row: this number is not in the list, or has a row above")
            if row.group() != right:
                yield finding(place.file, line, row.group().strip(), right.strip())
    for right in missing.values():
        yield finding(place.file, lines[0][0], "a row is missing in the table", right.strip())


def conditions(root):
    """For each call the numbers that it gives, in the order of the fields of its record.

    Those of a book rise: a book is checked field by field, so that no list of numbers has the order of its checks.
    """
    def numbers(record):
        found = []
        for _, text in part(root, CONDITIONS, f"pub record {record} ", ""):
            field = re.match(r"  pub \S+ : (?:\(k ≡ ([1-9]\d*)\) ↔|BookConditions )", text)
            if field:
                found += [int(field.group(1))] if field.group(1) else numbers(SHARED)
        return sorted(found) if record == SHARED else found
    return {call: numbers(record) for call, record in CALLS.items()}


def kinds(root, refusals):
    """The refusals that the tables of each kind have."""
    book, stops = conditions(root)["dtd"], (root / STOPS).read_text()
    return {
        ALL: refusals,
        OF_BOOK: [one for one in refusals if one.number in book],
        NOT_OF_BOOK: [one for one in refusals if one.number not in book],
        OF_BYTES: [one for one in refusals if re.search(rf"→ Stops s {one.name}\b", stops)],
    }


def unknown_records(root):
    """The records of conditions whose call is not among CALLS."""
    for line, text in enumerate((root / CONDITIONS).read_text().splitlines(), 1):
        record = re.match(r"pub record (\w+Conditions) ", text)
        if record and record.group(1) not in (SHARED, *CALLS.values()):
            yield finding(CONDITIONS, line, f"record {record.group(1)}", "in CALLS of tests/refusals_check.py")


def numbers_in(text):
    """The numbers of a text such as `1 to 7, 16, 17, 8, 9`."""
    found = re.findall(r"(\d+)(?: to (\d+))?", text)
    return [number for first, last in found for number in range(int(first), int(last or first) + 1)]


def said_of_calls(root):
    """Each place that lists the numbers of a call: file, line, the call, and the text with the numbers."""
    for file, heading in TABLES_OF_CALLS.items():
        for line, row, cell in rows_under(heading, list(lines_of(root / file))):
            for call in set(re.findall(r"`(\w+)`", " ".join(row[:2]))) & set(CALLS):
                yield file, line.number, call, ", ".join(row[1:]) if heading == "first" else cell
    text = (root / HEADER).read_text()
    for said in re.finditer(r"Refusals,((?:(?!\*/).)*)\*/\s*\w+ curlewsong_(\w+)\(", text, re.S):
        yield HEADER, text.count("\n", 0, said.start()) + 1, said.group(2), " ".join(said.group(1).split())


def wrong_calls(root):
    """Where a place lists other numbers for a call than its conditions have, or leaves a call out."""
    given = conditions(root)
    missing = {(file, call) for file in (*TABLES_OF_CALLS, HEADER) for call in CALLS}
    missing -= {(file, "dtd") for file in WITHOUT_PROGRAM}
    for file, line, call, text in said_of_calls(root):
        missing.discard((file, call))
        if numbers_in(text) != given[call]:
            yield finding(file, line, f"{call}: {text}", ", ".join(map(str, given[call])))
    for file, call in sorted(missing):
        yield finding(file, 1, f"the numbers of {call} are missing", ", ".join(map(str, given[call])))


def givers(cell):
    """The calls that a cell names, such as: every call but `accepts_word`; `dtd`."""
    first, *more = cell.split(";")
    named = set(re.findall(r"`(\w+)`", first))
    calls = set(CALLS) - {"dtd"}
    return (calls - named if first.startswith("every call") else named) | set(re.findall(r"`(\w+)`", "".join(more)))


def wrong_givers(root):
    """Where docs/FORMAT.md names other calls for a number than those whose conditions have it."""
    given = conditions(root)
    for line, row, cell in rows_under("given by", list(lines_of(root / "docs/FORMAT.md"))):
        right = {call for call, numbers in given.items() if int(row[0]) in numbers}
        if givers(cell) != right:
            yield finding("docs/FORMAT.md", line.number, f"{row[0]} is given by {cell}", ", ".join(sorted(right)))


def findings(root):
    refusals = kinds(root, the_list(root))
    found = [one for place in PLACES for one in wrong_rows(root, place, refusals[place.kind])]
    return [*found, *unknown_records(root), *wrong_calls(root), *wrong_givers(root)]


def main():
    found = findings(ROOT)
    print(*found, sep="\n", end="\n" if found else "")
    print(f"refusals: {len(the_list(ROOT))} in the list, {len(PLACES)} tables of them, {len(found)} findings")
    return 1 if found else 0


if __name__ == "__main__":
    sys.exit(main())
