#!/usr/bin/env python3
"""The benchmark's times of two builds of the static library, and their ratios.

  two_builds.py OLD NEW [--limit RATIO]   OLD and NEW are files libcurlewsong.a; RATIO is 1.10 unless given

The time of the same machine code depends on where it lies in memory. So each library is timed in three layouts: as it
is linked, and with every function at a multiple of 32 and of 64 bytes. The benchmark runs four times for each library
and layout, in turn. A figure is the least time over all layouts and runs. Exits 1 where a ratio NEW / OLD is above
the limit, and 2 where nothing can be timed. It takes about ten minutes.
"""
import argparse
import os
import pathlib
import re
import shutil
import subprocess
import sys

ROOT = pathlib.Path(__file__).resolve().parent.parent
TOOLS = {"cargo": "https://rustup.rs", **dict.fromkeys(["ar", "objcopy", "objdump"], "the Debian package binutils")}
LIBRARY = "libcurlewsong.a"
LAYOUTS = [None, 32, 64]
ROUNDS = 4
FIGURE = re.compile(r"^  (.+?) +library +([0-9.]+) µs least ")


def fail(why):
    print(f"two_builds: {why}", file=sys.stderr)
    sys.exit(2)


def run(*command, **options):
    """What the command prints."""
    done = subprocess.run([str(part) for part in command], stdout=subprocess.PIPE, encoding="utf-8", **options)
    if done.returncode:
        fail(f"{command[0]} ended with status {done.returncode}")
    return done.stdout


def lay_out(library, folder, multiple):
    """Puts the library's bytes into the folder, its functions at multiples of so many bytes, or as they are for None."""
    shutil.rmtree(folder, ignore_errors=True)
    folder.mkdir(parents=True)
    (folder / LIBRARY).write_bytes(library)
    if multiple is None:
        return
    run("ar", "x", LIBRARY, cwd=folder)
    objects = run("ar", "t", LIBRARY, cwd=folder).split()
    for name in objects:
        sections = re.findall(r" (\.text\.\S+) ", run("objdump", "-h", folder / name))
        if not sections:
            fail(f"{name} has no function in a section of its own, so no other layout can be made")
        run("objcopy", *(f"--set-section-alignment={section}={multiple}" for section in sections), folder / name)
    run("ar", "rcs", LIBRARY, *objects, cwd=folder)


def build(folder):
    """The benchmark, linked with the library in the folder."""
    run("cargo", "build", "--offline", "--release", "--quiet", "--target-dir", folder / "rust",
        "--manifest-path", ROOT / "rust" / "Cargo.toml", "-p", "plain", "--features", "library", "--bin", "bench",
        env={**os.environ, "CURLEWSONG_LIB": str(folder)})
    return folder / "rust" / "release" / "bench"


def benches(libraries):
    """The benchmark for each library and layout."""
    built = {}
    for multiple in LAYOUTS:
        for which, library in libraries.items():
            folder = ROOT / "target" / "two_builds" / f"{which}-{multiple or 'linked'}"
            print(f"building {folder.name}", file=sys.stderr)
            lay_out(library, folder, multiple)
            built[which, multiple] = build(folder)
    return built


def figures(printed):
    """The library's least time in microseconds by book and call, from what the benchmark prints."""
    times, book = {}, None
    for line in printed.splitlines():
        if not line.startswith(" "):
            book = line.split(":")[0]
        elif found := FIGURE.match(line):
            times[book, found[1]] = float(found[2])
    return times


def timed(built):
    """The least times of each library over all layouts and rounds."""
    least = {}
    for number in range(ROUNDS):
        for (which, multiple), bench in built.items():
            print(f"round {number + 1} of {ROUNDS}: {which}, {multiple or 'as linked'}", file=sys.stderr)
            times = figures(run(bench))
            known = least.setdefault(which, times)
            if not times or any(times.keys() != other.keys() for other in least.values()):
                fail("the benchmark printed no times of the library, or not the same ones in each run")
            least[which] = {figure: min(times[figure], known[figure]) for figure in known}
    return least["old"], least["new"]


def table(old, new, limit):
    """A heading, and a line for each figure: old time, new time, ratio, and a mark where that is above the limit."""
    lines = [f"{'book':<28} {'call':<26} {'old, µs':>10} {'new, µs':>10} {'ratio':>6}"]
    for book, call in old:
        before, after = old[book, call], new[book, call]
        mark = " above" if after > limit * before else ""
        lines.append(f"{book:<28} {call:<26} {before:>10.4g} {after:>10.4g} {after / before:>6.3f}{mark}")
    return lines


def main(arguments):
    parser = argparse.ArgumentParser(description=__doc__, formatter_class=argparse.RawDescriptionHelpFormatter)
    parser.add_argument("old", metavar="OLD", type=pathlib.Path)
    parser.add_argument("new", metavar="NEW", type=pathlib.Path)
    parser.add_argument("--limit", metavar="RATIO", type=float, default=1.10)
    given = parser.parse_args(arguments)
    if not given.limit > 0:
        fail(f"--limit wants a number above 0, and not {given.limit:g}")
    for tool, source in TOOLS.items():
        if not shutil.which(tool):
            fail(f"{tool} is missing. Get it from {source}.")
    try:
        old, new = timed(benches({"old": given.old.read_bytes(), "new": given.new.read_bytes()}))
    except OSError as error:
        fail(error)
    lines = table(old, new, given.limit)
    worse = sum(line.endswith(" above") for line in lines)
    print(*lines, f"{worse} of {len(old)} ratios above {given.limit:g}", sep="\n")
    return int(worse > 0)


if __name__ == "__main__":
    sys.exit(main(sys.argv[1:]))
