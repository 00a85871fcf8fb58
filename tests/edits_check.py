#!/usr/bin/env python3
"""Every must-fail edit can be made: crates/NAME/must-fail/LABEL.edit, as CONTRIBUTING.md, section 5, describes it.

The first line is a comment. `file:` names a file of the crate in src/ or specs/. Each `old:` text is in that file
exactly once, where a later pair of `old:` and `new:` sees what an earlier pair has changed; each pair changes
something, and an edit has at least one. rt says so too, but only when it comes to the edit, after all proofs.

Each finding is a line FILE:LINE: message. The exit status is 1 where there is one.
"""
import pathlib
import re
import sys

ROOT = pathlib.Path(__file__).resolve().parent.parent


class Edit:
    """Walks the lines of one edit; `found` then has each fault with the number of its line."""

    def __init__(self, path):
        self.crate = path.parent.parent
        self.file = None  # the file that the pairs are for, where there is such a file
        self.texts = {}  # the files of the crate as the pairs so far have changed them
        self.old = None
        self.pairs = 0
        self.found = []
        lines = path.read_text().splitlines()
        if not (lines and re.match("# *[^# ]", lines[0])):
            self.found.append((1, "the first line is not a comment that says what the mutant does"))
        for number, line in enumerate(lines, 1):
            fault = self.take(line)
            if fault:
                self.found.append((number, fault))
        if self.old is not None or not self.pairs:
            self.found.append((max(1, len(lines)), "the edit ends without a 'new:'"))

    def take(self, line):
        """What is wrong with a line, or None."""
        row = re.fullmatch(r"(file|old|new):(?: (.*))?", line)
        if not row:
            passed = line.startswith("#") or not line.strip()
            return None if passed else "neither a comment nor 'file: ', 'old: ' or 'new: ' with what is meant"
        key, value = row.groups("")
        if key == "file":
            return self.open(value)
        if key == "old":
            pending, self.old = self.old, value
            return "the 'old:' before this one has no 'new:'" if pending is not None else None
        old, self.old = self.old, None
        self.pairs += 1
        return "there is no 'old:' before this 'new:'" if old is None else self.replace(old, value)

    def open(self, name):
        inside = re.fullmatch(r"(src|specs)/.+", name) and ".." not in name.split("/")
        self.file = name if inside and (self.crate / name).is_file() else None
        if self.file is None:
            return f"there is no file {name} in src/ or specs/ of crate {self.crate.name}"
        self.texts.setdefault(name, (self.crate / name).read_text())
        return None

    def replace(self, old, new):
        if self.file is None:
            return "there is no good 'file:' before this pair"
        text = self.texts[self.file]
        if not old or text.count(old) != 1:
            return f"the old text is {text.count(old) if old else 0} times in {self.file}, not once: {old}"
        if old == new:
            return "the old text and the new one are the same"
        self.texts[self.file] = text.replace(old, new)
        return None


def findings(root):
    """Each finding as a line, and the numbers of edits and of pairs."""
    edits = {path: Edit(path) for path in sorted(root.glob("crates/*/must-fail/*.edit"))}
    found = [(path.relative_to(root), *one) for path, edit in edits.items() for one in edit.found]
    lines = [f"{file}:{number}: {fault}" for file, number, fault in found]
    return lines, len(edits), sum(edit.pairs for edit in edits.values())


def main():
    found, edits, pairs = findings(ROOT)
    print(*found, sep="\n", end="\n" if found else "")
    print(f"edits: {edits} edits with {pairs} pairs, {len(found)} findings")
    return 1 if found or not edits else 0


if __name__ == "__main__":
    sys.exit(main())
