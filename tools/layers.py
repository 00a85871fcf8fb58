#!/usr/bin/env python3
"""The layers of crates.txt as a picture, docs/layers.svg.

  layers.py           writes docs/layers.svg
  layers.py --check   exits 1 where docs/layers.svg is not what crates.txt gives, or a mark "(no function)." is wrong
  layers.py --text    prints the layers as text: each crate, and the crates that it depends on

A dependency that follows from others is left out: where a depends on b and c, and b on c, a has no arrow to c.
"""
import collections
import itertools
import pathlib
import re
import sys

ROOT = pathlib.Path(__file__).resolve().parent.parent
PICTURE = ROOT / "docs" / "layers.svg"
MARK = "(no function)."
WITHOUT_ARROWS = "test programs"
LEFT, WIDTH, TOP, ROW, BOX, GAP = 112, 1120, 18, 44, 24, 16
COLOURS = ["#444444", "#00558b", "#8a4b00", "#00693e", "#8b1a4a", "#5b2a86", "#006d77", "#9b2226"]
LEGEND = [
    "Lowest layer at the bottom. An arrow goes from a crate to one that it depends on, in the colour of its own group.",
    "Left out: arrows that follow from others, and the arrows of the test programs.",
    "Dashed border: a crate of types, definitions and theorems only, without a function.",
]


def read(text):
    """The crates of each group, each crate's dependencies, and the crates marked as having no function."""
    text = re.sub(r"^(\w+) staticlib:", r"\1:", text, flags=re.M)
    names = re.findall(r"^(\w+):", text, re.M)
    groups, deps, bare, said = {}, {}, set(), ""
    for number, line in enumerate(text.splitlines(), 1):
        if line.startswith("## "):
            groups[line[3:].split(":")[0]] = own = []
        elif line.startswith("#"):
            said = line
        elif line:
            name, after = line.split(":")
            below = [d for d in after.split() if d in names]
            early = [d for d in below if d not in deps] if groups else ["the first line '## GROUP: ..'"]
            if early:
                sys.exit(f"crates.txt:{number}: {name} comes before {early[0]}: move it down")
            own.append(name)
            deps[name] = below
            bare.update([name] if said.endswith(MARK) else [])
            said = ""
    return groups, deps, bare


def reduced(deps):
    """Each crate's dependencies, without those that follow from others."""
    reach = {}
    for name, below in deps.items():
        reach[name] = set(below).union(*(reach[d] for d in below))
    return {name: [d for d in below if not any(d in reach[e] for e in below)] for name, below in deps.items()}


def levels(groups, deps):
    """The row of each crate, 0 at the bottom, and the lowest and highest row of each group."""
    level, bands, low = {}, [], 0
    for group, names in groups.items():
        for name in names:
            level[name] = max([level[d] + 1 for d in deps[name] if d in names], default=low)
        top = max(level[name] for name in names)
        bands.append((group, (low, top)))
        low = top + 1
    return level, bands


def thread(name, dep, level):
    """The points of an arrow, one for each row: a crate, bends (as tuples), a crate."""
    return [name, *((name, dep, row) for row in range(level[name] - 1, level[dep], -1)), dep]


def width(point):
    return 15 * len(point) // 2 + 12 if isinstance(point, str) else 2


def fitted(row, wish):
    """Places for the points of a row in their order, each as near to its wish as the widths allow."""
    steps = ((width(a) + width(b)) // 2 + GAP for a, b in zip(row, row[1:]))
    offsets = list(itertools.accumulate(steps, initial=0))
    runs = []  # of points that touch: the sum of what they wish for the first one's place, their weight, their number
    for point, offset in zip(row, offsets):
        weight = 1 if isinstance(point, str) else 6
        runs.append([(wish[point] - offset) * weight, weight, 1])
        while len(runs) > 1 and runs[-2][0] // runs[-2][1] > runs[-1][0] // runs[-1][1]:
            runs[-2:] = [[a + b for a, b in zip(*runs[-2:])]]
    starts = [total // weight for total, weight, count in runs for _ in range(count)]
    least, most = width(row[0]) // 2, WIDTH - offsets[-1] - width(row[-1]) // 2
    if least > most:
        sys.exit(f"one row is too narrow for {', '.join(map(str, row))}: raise WIDTH in tools/layers.py")
    return {p: max(least, min(start, most)) + offset for p, start, offset in zip(row, starts, offsets)}


def untangle(rows, up, down):
    """Orders each row so that few arrows cross: by the mean place of a point's neighbours, then by swaps of two."""
    at = {p: i for row in rows for i, p in enumerate(row)}
    for side, sweep in ((down, rows), (up, rows[::-1])):
        for row in sweep:
            row.sort(key=lambda p: sum(at[q] for q in side[p]) / len(side[p]) if side[p] else at[p])
            at.update((p, i) for i, p in enumerate(row))

    def crossings(a, b):
        return sum(at[p] > at[q] for side in (up, down) for p in side[a] for q in side[b])

    swapped = True
    while swapped:
        swapped = False
        for row, i in [(row, i) for row in rows for i in range(len(row) - 1)]:
            a, b = row[i:i + 2]
            if crossings(a, b) > crossings(b, a):
                row[i:i + 2], at[a], at[b], swapped = [b, a], i + 1, i, True


def places(level, threads):
    """The place of each point from left to right, in whole numbers, so that every machine draws the same picture."""
    up, down, line = collections.defaultdict(list), collections.defaultdict(list), {}
    rows = [[name for name in level if level[name] == row] for row in range(max(level.values()) + 1)]
    for points in threads:
        for bend in points[1:-1]:
            rows[bend[2]].append(bend)
            line[bend] = points
        for a, b in zip(points, points[1:]):
            down[a].append(b)
            up[b].append(a)
    untangle(rows, up, down)
    # A bend wishes to be in line with its arrow, a crate in the middle of its neighbours.
    x = {p: (2 * i + 1) * WIDTH // (2 * len(row)) for row in rows for i, p in enumerate(row)}
    for turn in range(200):
        for row in rows[::-1] if turn % 2 else rows:
            near = {p: line.get(p) or up[p] + down[p] or [p] for p in row}
            x.update(fitted(row, {p: sum(x[q] for q in near[p]) // len(near[p]) for p in row}))
    return {p: x[p] + LEFT for p in x}


def arrow(points, x, y, colour):
    """A curve through the points, with its head at the last one."""
    curves = [f"V{y(a) + BOX}C{x[a]} {y(a) + BOX + 12} {x[b]} {y(b) - 15} {x[b]} {y(b) - 3}"
              for a, b in zip(points, points[1:])]
    path = f"M{x[points[0]]} {y(points[0])}" + "".join(curves)
    return (f'<path d="{path}" fill="none" stroke="{colour}" stroke-width="1.3"/>\n'
            f'<path d="M{x[points[-1]] - 4} {y(points[-1]) - 8}h8l-4 8z" fill="{colour}"/>')


def box(name, at, top, colour, dashed):
    """A crate as a box with its name."""
    dash = ' stroke-dasharray="4 3"' if dashed else ""
    return (f'<rect x="{at - width(name) // 2}" y="{top}" width="{width(name)}" height="{BOX}" rx="4" fill="white" '
            f'stroke="{colour}"{dash}/>\n'
            f'<text x="{at}" y="{top + 16}" text-anchor="middle" font-family="monospace">{name}</text>')


def band(group, top, rows, colour):
    """The ground of a group, with its label."""
    return (f'<rect x="4" y="{top - 9}" width="{LEFT + WIDTH + 4}" height="{ROW * rows - 4}" rx="6" fill="#f1f3f5"/>\n'
            f'<text x="12" y="{top + 16}" font-size="13" font-weight="bold" fill="{colour}">{group}</text>')


def svg(groups, deps, bare):
    """The whole picture. Arrows come before boxes, which hide where an arrow begins."""
    deps = {name: [] if name in groups.get(WITHOUT_ARROWS, []) else below for name, below in reduced(deps).items()}
    level, bands = levels(groups, deps)
    threads = [thread(name, d, level) for name in level for d in deps[name]]
    x, rows = places(level, threads), max(level.values()) + 1
    tones = dict(zip(groups, itertools.cycle(COLOURS)))
    tone = {name: tones[group] for group in groups for name in groups[group]}

    def y(point):
        return TOP + ROW * (rows - 1 - (level[point] if isinstance(point, str) else point[2]))

    end = TOP + ROW * rows
    return "\n".join([
        f'<svg xmlns="http://www.w3.org/2000/svg" viewBox="0 0 {LEFT + WIDTH + 12} {end + 17 * len(LEGEND)}" '
        'font-family="sans-serif" font-size="12">',
        '<title>The crates of Curlewsong in layers</title>\n<rect width="100%" height="100%" fill="white"/>',
        *(band(group, TOP + ROW * (rows - 1 - top), top - low + 1, tones[group]) for group, (low, top) in bands),
        *(arrow(points, x, y, tone[points[0]]) for points in threads),
        *(box(name, x[name], y(name), tone[name], name in bare) for name in level),
        *(f'<text x="12" y="{end + 6 + 17 * i}">{line}</text>' for i, line in enumerate(LEGEND)), "</svg>\n"])


def text(groups, deps, bare):
    """The layers as lines, lowest first."""
    direct = reduced(deps)
    return "\n\n".join("\n".join([f"{group}:"] + [
        " ".join([f"  {name}:", *direct[name]] + ([MARK[:-1]] if name in bare else [])) for name in names])
        for group, names in groups.items())


def wrong_marks(deps, bare):
    """A message for each crate whose mark is wrong: its source files have no function and pass none on, or do."""
    for name in deps:
        source = "\n".join(file.read_text() for file in (ROOT / "crates" / name / "src").glob("*.rt"))
        empty = not re.search(r"^ *(pub )?(extern .*)?fn |^pub use ", source, re.M)
        if empty != (name in bare):
            yield f'crates.txt: the comment of {name} must {"" if empty else "not "}end with "{MARK}"'


def main(arguments):
    parts = read((ROOT / "crates.txt").read_text())
    if arguments == ["--text"]:
        print(text(*parts))
    elif arguments == ["--check"]:
        found = list(wrong_marks(*parts[1:]))
        if not PICTURE.exists() or PICTURE.read_text() != svg(*parts):
            found.append("docs/layers.svg is not what crates.txt gives: run python3 tools/layers.py")
        sys.exit("\n".join(found) or None)
    elif arguments:
        sys.exit(__doc__)
    else:
        PICTURE.write_text(svg(*parts))


if __name__ == "__main__":
    main(sys.argv[1:])
