#!/usr/bin/env python3
"""Counts, in the sources of all crates, the places that docs/DESIGN-PASS.md is about.

`tools/places.py` prints a count for each kind of place, `tools/places.py --list` the places too. A place is found by
its shape alone: which of them are fine as they are, the page says.
"""
import collections
import difflib
import itertools
import pathlib
import re
import sys

ROOT = pathlib.Path(__file__).resolve().parent.parent
OPENING = re.compile(r"^ *(?:pub |extern \"C\" )*fn (\w+)", re.M)


class Function:
    """A function of the sources: where it is, its parameters, what it requires, and its body."""

    def __init__(self, path, text, start, name):
        self.name = name
        self.place = f"{path.relative_to(ROOT)}:{text.count(chr(10), 0, start) + 1}: {name}"
        end = re.compile(r"^" + re.match(r" *", text[start:]).group() + r"\}", re.M).search(text, start)
        whole = text[start : end.end() if end else len(text)]
        body = re.search(r"^ *\{\n(.*)^ *\}", whole, re.M | re.S) or re.search(r"\{\n(.*)^ *\}", whole, re.M | re.S)
        self.body = re.sub(r"//.*", "", body.group(1)) if body else ""
        head = whole[: body.start()] if body else whole
        inside = re.search(r"\((.*?)\)(?: ->|\s*$|\s*\n|\s*\{)", head, re.S)
        self.parameters = re.findall(r"(\w+): ([^,\n]+)", inside.group(1)) if inside else []
        self.facts = [
            fact.strip(" ()")
            for clause in re.findall(r"requires \{(.*?)\}\s*(?:ensures|$|\n)", head, re.S)
            for fact in re.split(r" × |\n", clause)
            if fact.strip()
        ]


def sources():
    for path in sorted(ROOT.glob("crates/*/src/*.rt")):
        yield path, path.read_text()


def functions():
    for path, text in sources():
        for found in OPENING.finditer(text):
            yield Function(path, text, found.start(), found.group(1))


def tokens(body):
    return re.findall(r"\w+|[^\w\s]", body)


def shape(body):
    """The tokens of a body, each name as the number of its first place: alike for twins that differ in names."""
    seen = {}
    return [seen.setdefault(token, len(seen)) if re.match(r"\w", token) else token for token in tokens(body)]


def declared(word):
    """The enums or structs of the sources: the path, the name, and what stands between the braces."""
    for path, text in sources():
        for found in re.finditer(rf"^ *(?:pub )?{word} (\w+)[^{{;]*\{{(.*?)^ *\}}", text, re.M | re.S):
            yield path.relative_to(ROOT), found.group(1), found.group(2)


def lines_like(pattern):
    """The lines of the sources that begin with the pattern, each with its place."""
    for path, text in sources():
        for number, line in enumerate(text.splitlines(), 1):
            if re.match(pattern, line):
                yield f"{path.relative_to(ROOT)}:{number}: {line.strip()}"


def own_results():
    """1: enums of the shape of Option, Result or Ordering."""
    for path, name, body in declared("enum"):
        variants = re.findall(r"^ +(\w+)(\(.*\))?,", body, re.M)
        refuses = any("Refusal" in value for _, value in variants)
        carries = len(variants) == 2 and any(value for _, value in variants)
        orders = [variant for variant, _ in variants] == ["Below", "Same", "Above"]
        if refuses or carries or orders:
            yield f"{path}: {name}"


def flags():
    """1: structs with a flag for the outcome and a value beside it."""
    for path, name, body in declared("struct"):
        if re.search(r"\boutcome:", body):
            yield f"{path}: {name}"


def numbers():
    """1: constants that are a number for a kind, a state, a mark or a value that is missing."""
    for path, text in sources():
        for found in re.finditer(r"^ *(?:pub )?const (\w+): (u8|usize) = (\d+|[A-Z]+);", text, re.M):
            small = found.group(2) == "u8" or found.group(1) in ("END", "NOWHERE")
            if small:
                yield f"{path.relative_to(ROOT)}: {found.group(1)} = {found.group(3)}"


def twins():
    """2: pairs of functions of at least five lines whose bodies are nearly alike."""
    long = [one for one in functions() if one.body.count("\n") >= 5]
    for first, second in itertools.combinations(long, 2):
        one, other = tokens(first.body), tokens(second.body)
        if abs(len(one) - len(other)) * 5 > len(one):
            continue
        likeness = difflib.SequenceMatcher(None, one, other, autojunk=False)
        if shape(first.body) == shape(second.body) or likeness.ratio() >= 0.85:
            yield f"{first.place} | {second.place}"


def loops():
    """3: loops that are no `for`."""
    return lines_like(r" *(while|loop)\b")


def operators():
    """4: operators, comparisons and copies written out."""
    for path, text in sources():
        for found in re.finditer(r"\bif [^{}\n]+\{\s*(?:return )?(?:true|false);?\s*\}( else)?", text):
            number = text.count("\n", 0, found.start()) + 1
            yield f"{path.relative_to(ROOT)}:{number}: {found.group().splitlines()[0]}"
    for one in functions():
        values = re.findall(r"=> (\w+),", one.body)
        if one.body.strip().startswith("match") and values and set(values) <= {"true", "false"}:
            yield one.place


def facts():
    """5: facts that three or more functions require."""
    count = collections.Counter(fact for one in functions() for fact in set(one.facts))
    for fact, number in count.most_common():
        if number >= 3:
            yield f"{number} functions: {fact}"


def companies():
    """5: pairs of parameters that stand together in five or more functions."""
    count = collections.Counter()
    for one in functions():
        names = [f"{name}: {kind}" for name, kind in one.parameters if kind not in ("&impl Print",)]
        count.update((a, b) for i, a in enumerate(names) for b in names[i + 1 :])
    for pair, number in count.most_common():
        if number >= 5:
            yield f"{number} functions: {pair[0]}, {pair[1]}"


def arrays():
    """6: arrays of a fixed length, as fields and as variables."""
    return lines_like(r" *(pub )?\w+: \[\w+; \w+\],|.*let mut \w+(: [^=]+)? = \[")


def old_proofs():
    """8: proof files in the form before goals had names."""
    for path in sorted(ROOT.glob("crates/*/proofs/**/Proof.antt")):
        yield str(path.relative_to(ROOT))


def answers():
    """8: proof files with answers to goals, and with invariants."""
    for name in ("Answers", "Invariants"):
        for path in sorted(ROOT.glob(f"crates/*/proofs/*/**/{name}.antt")):
            yield str(path.relative_to(ROOT))


KINDS = [own_results, flags, numbers, twins, loops, operators, facts, companies, arrays, old_proofs, answers]


def main():
    listed = sys.argv[1:] == ["--list"]
    if sys.argv[1:] and not listed:
        sys.exit(__doc__)
    for kind in KINDS:
        found = list(kind())
        print(f"{len(found):4} {kind.__doc__}")
        if listed:
            print(*("       " + place for place in found), sep="\n")


main()
