#!/usr/bin/env python3
"""Respells the names of this repository's definitions and lemmas: words in snake case, joined by underscores.

usage: python3 tools/respell.py [--list]      at the top; --list only prints what would be renamed

It ran once, in the commit that docs/PORT.md names, when the repository was brought to a newer Rattle, and is kept to
show what it did. Do not run it again: it does not know all names that Rattle makes today.

A name that is declared in specs/ or proofs/ and has a capital inside a part or a dash is respelled wherever it stands
in specs/, proofs/ and src/ outside of strings; in comments only within backquotes. Types, modules, names of the library
and names that Rattle makes keep their spelling, and so does a name whose new spelling stands for something else already.
"""

import pathlib
import re
import sys

ROOT = pathlib.Path(__file__).resolve().parent.parent
CRATES = ROOT / "crates"

# A name ends at white space and at these characters.
PART = re.compile(r"[^\s(){}\[\],;.\"`|:=&!<>*/+%^@#?\\\u2192\u03bb\u2261\u00d7\u2264\u2190\u2237\u2260\u228e\u2194]+")
DECLARED = re.compile(r"^\s*(?:(?:pub|abbrev|unfoldable|data|record|postulate)\s+)*([^\s(){}\[\],;.\"`]+)((?: [^\s(){}\[\],;.\"`:=]+)*)(?:\s+[({].*?[)}])*\s+:\s")
FIELD = re.compile(r"[{;]\s*([^\s(){}\[\],;.\"`]+)\s+:\s")
# Names that Rattle makes, which proof files for functions define or cite.
MADE = re.compile(
    r"^(returns|invariant|decreases|loop|overflow|bounds|slice|nonzero|cast|array|offset|array-read|array-write)(-.*)?$"
    r"|^.*-requires(-\d+)?$|^Need-.*$|^shared-slice.*$"
)


def files(kinds):
    for path in sorted(CRATES.rglob("*")):
        if path.suffix in kinds and "out" not in path.relative_to(CRATES).parts:
            yield path


def is_proof_of_function(path):
    return path.name in ("Proof.antt", "Answers.antt", "Invariants.antt")


def without_text(line):
    """The line with its comment and its strings blanked."""
    line = re.sub(r'"(?:[^"\\]|\\.)*"', lambda m: " " * len(m.group()), line)
    at = line.find("-- ")
    return line if at < 0 else line[:at]


def declared():
    """The names that are declared: those of definitions and lemmas, and those that only a function's proof declares."""
    names, of_proofs = set(), set()
    for path in files({".antt"}):
        to = of_proofs if is_proof_of_function(path) else names
        for line in path.read_text().splitlines():
            bare = without_text(line)
            if bare.lstrip().startswith("use "):
                continue
            found = DECLARED.match(bare)
            if found:
                to.add(found.group(1))
                to.update(found.group(2).split())
            to.update(FIELD.findall(bare))
    return names, of_proofs - names


def imported():
    """The names that files take from the library."""
    names = set()
    for path in files({".antt", ".rt"}):
        own = f"Rattle.{path.relative_to(CRATES).parts[0]}."
        for line in path.read_text().splitlines():
            found = re.match(r"\s*(?:ghost )?(?:pub )?use ([^{]*)\{(.*)\}", line)
            if not found or (path.suffix == ".rt" and "ghost" not in line):
                continue
            crate = re.match(r"Rattle\.([a-z0-9_]+)\.", found.group(1))
            if crate and (CRATES / crate.group(1)).is_dir():
                continue
            for name in found.group(2).split(","):
                names.update(name.split(" as ")[-1:] if " as " in name else [name.strip()])
    return {n.strip() for n in names}


def respelled(name):
    parts = []
    for part in name.split("-"):
        if part[:1].islower():
            part = re.sub(r"(?<=[a-z0-9])([A-Z])", lambda m: "_" + m.group(1).lower(), part)
        parts.append(part)
    return "_".join(parts)


def plan():
    """The new spelling of each name that gets one, and of the others why they keep theirs. Where a definition and a
    lemma would fall together, or a lemma and a name of the library, the lemma gets the ending _lem."""
    (own, of_proofs), library = declared(), imported()
    renamed, kept = {}, {}
    for name in sorted(own | of_proofs):
        new = respelled(name)
        if new == name or "◌" in name or not name[:1].isalpha():
            continue
        if name in of_proofs and MADE.match(name):
            kept[name] = "a name that Rattle makes"
        elif name in library:
            kept[name] = "a name of the library too"
        else:
            renamed[name] = new
    # A lemma that has the new spelling of a definition gives way to it.
    for name, new in sorted(renamed.items()):
        if "-" not in name and new in own | of_proofs and new not in library:
            renamed[new] = new + "_lem"
    taken = (own | of_proofs | library) - set(renamed)
    for name in sorted(renamed, key=lambda n: (n.islower(), n)):
        if renamed[name] in taken:
            renamed[name] += "_lem"
        if renamed[name] in taken:
            kept[name] = f"{renamed[name]} stands for something else"
        taken.add(renamed[name])
    for name in kept:
        renamed.pop(name, None)
    return renamed, kept


def respell_line(line, renamed):
    def one(found):
        name, at = found.group(), found.start()
        # A name without a capital or a dash is a function's too, as a part of a path.
        if name.islower() and "-" not in name and found.string[:at].endswith((".", ":")):
            return name
        return renamed.get(name, name)

    pieces = re.split(r'("(?:[^"\\]|\\.)*")', line)
    out = []
    for i, piece in enumerate(pieces):
        out.append(piece if i % 2 else PART.sub(one, piece))
    return "".join(out)


def respell(text, mark, renamed):
    lines = []
    for line in text.split("\n"):
        at = line.find(mark)
        code, comment = (line, "") if at < 0 else (line[:at], line[at:])
        comment = re.sub(r"`[^`]*`", lambda m: respell_line(m.group(), renamed), comment)
        lines.append(respell_line(code, renamed) + comment)
    return "\n".join(lines)


def main(arguments):
    if arguments not in ([], ["--list"]):
        return __doc__
    renamed, kept = plan()
    if arguments == ["--list"]:
        for name, new in renamed.items():
            print(f"{name} -> {new}")
        for name, why in kept.items():
            print(f"kept {name}: {why}")
        return 0
    changed = 0
    for path in files({".antt", ".rt"}):
        text = path.read_text()
        new = respell(text, "--" if path.suffix == ".antt" else "//", renamed)
        if new != text:
            path.write_text(new)
            changed += 1
    print(f"respell: {len(renamed)} names in {changed} files; {len(kept)} keep their spelling")
    return 0


if __name__ == "__main__":
    raise SystemExit(main(sys.argv[1:]))
