#!/usr/bin/env python3
"""Holds the documents to the tree: the paths, headings, edits and names that they give are there, the table of crates
is that of crates.txt, the picture of the layers is what its script draws, no line is too long, and the changelog's
newest version is the C header's."""
import re
import subprocess
import sys
from itertools import zip_longest
from pathlib import Path

if __name__ == "__main__":
    sys.dont_write_bytecode = True
    sys.path.insert(0, str(Path(__file__).resolve().parents[2] / "tools/layers"))
import names
from crates import groups
from names import ARCHITECTURE, FILES, QUOTED, ROOT, in_column, read

WIDEST = 120


def long_lines():
    """A table's row cannot be broken."""
    for document in (name for name in FILES if name.endswith(".md")):
        for number, line in enumerate(read(document).splitlines(), 1):
            if len(line) > WIDEST and not line.startswith("|"):
                yield f"{document}:{number}: {len(line)} columns"
            if re.search("@[A-Z]+@", line):
                yield f"{document}:{number}: a figure is to be filled in"


def table_of_crates():
    """{title: [(crate, those that it knows)]}"""
    section = re.search(r"^## Crates, bottom up$(.*?)^## ", read(ARCHITECTURE), re.MULTILINE | re.DOTALL)
    found = {}
    for line in section[1].splitlines():
        if line.startswith("### "):
            rows = found[line[4:]] = []
        elif line.startswith("| `"):
            crate, *_, known = line.strip("| ").split(" | ")
            rows.append((crate.strip("`"), QUOTED.findall(known)))
    return found


def other_crates():
    drawn = table_of_crates()
    wanted = {title: list(crates.items()) for title, crates in groups().items()}
    if list(drawn) != list(wanted):
        yield f"{ARCHITECTURE}: groups {list(drawn)}, in crates.txt {list(wanted)}"
    for title, rows in wanted.items():
        for row, other in zip_longest(rows, drawn.get(title, [])):
            if row != other:
                yield f"{ARCHITECTURE}, {title}: {other}, in crates.txt {row}"


def other_wrong_loaders():
    named, there = in_column("wrong loader"), {Path(name).stem for name in FILES if name.endswith(".diff")}
    if named != there:
        yield f"{ARCHITECTURE}: wrong loaders named or there, and not both: {sorted(named ^ there)}"


def other_picture():
    drawn = subprocess.run([sys.executable, "-B", ROOT / "tools/layers/draw.py"], capture_output=True, text=True)
    if drawn.returncode or drawn.stdout != read("docs/layers.svg"):
        yield f"docs/layers.svg is not what tools/layers/draw.py draws. {drawn.stderr[-200:]}"


def other_version():
    newest = re.search(r"^## .*?(\d+\.\d+(?:\.\d+)?)", read("CHANGELOG.md"), re.MULTILINE)
    macro = re.search(r'^#define FRONDICARE_VERSION "([^"]*)"', read("include/frondicare.h"), re.MULTILINE)
    if not newest or not macro or newest[1] != macro[1]:
        yield f"version: {newest and newest[1]} in CHANGELOG.md, {macro and macro[1]} in include/frondicare.h"


def main():
    checks = [names.missing_paths, names.missing_headings, names.missing_edits, names.missing_names, long_lines,
              other_crates, other_wrong_loaders, other_picture, other_version]
    mistakes = [mistake for check in checks for mistake in check()]
    print(*mistakes, sep="\n", end="\n" if mistakes else "")
    print(f"documents: {len(checks)} checks, {len(mistakes)} mistakes")
    sys.exit(bool(mistakes))


if __name__ == "__main__":
    main()
