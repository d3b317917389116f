#!/usr/bin/env python3
"""Holds what rt ci says of each edit to tests/refusals.txt: the prover refuses it first in the file and the declaration
that stand there, and for a fact.
Usage: tests/refusals.py LOG           every edit in the tree; the log is what rt ci, or rt must-fail for all, printed
       tests/refusals.py LOG --write   writes the places of the edits that the log tells of, to be read and committed"""
import re
import sys
from pathlib import Path

ROOT = Path(__file__).resolve().parents[1]
PLACES = ROOT / "tests/refusals.txt"
SAID = re.compile(r"rt: must-fail (\w+/[\w.-]+)\.edit: refused, as it must be: (?:note: )?(?:\./)?(\S+?):\d+:\d+: "
                  r"(?:error: )?(?:`([^`]+)`: )?(.*)")
# The prover's words where a fact fails.
FACT = re.compile(
    "as printed, the two |computed as far as they go, the two |computed as a goal is|expected type "  # two sides differ
    "|give a proof of that|list the missing equation"  # what is left of a goal after rewriting
    "|`omega`: the goal does not follow|`(?:search|grind)`: no proof of"  # what no tactic finds
    "|it is not proved that (?:what the function ensures|the invariant|the loop ends)")  # where no proof is written
# Words and declarations about a bound: such a refusal shows nothing of what a function answers. Where a function
# promises nothing else, the line of its edit ends in ', a bound'.
BOUND = re.compile(r"it is not proved that (?!what the function ensures|the invariant|the loop ends)")
BOUND_NAME = re.compile("(overflow|add|sub|mul|div|rem|cast|index|slice|part|shared-slice|array)[-_]|.+-requires")


def read(log):
    """Each edit's place, whether a fact fails there, and the prover's words."""
    for name, path, declaration, words in SAID.findall(log):
        goal = declaration or (re.findall(r"\(`([^`]+)`\)", words) or ["its contract"])[0]
        bound = BOUND.match(words) is not None or BOUND_NAME.match(goal) is not None
        yield name, f"{path} {goal}{', a bound' * bound}", bound or FACT.match(words) is not None, words


def stored():
    lines = PLACES.read_text().splitlines() if PLACES.is_file() else []
    return dict(line.split(": ", 1) for line in lines)


def edits():
    return {f"{file.parents[1].name}/{file.stem}" for file in ROOT.glob("crates/*/must-fail/*.edit")}


def faults(log, found, places):
    for name in sorted(edits() | places.keys()):
        place, is_fact, words = found.get(name, (None, False, ""))
        if name not in edits():
            yield f"{name} stands in tests/refusals.txt and is no edit"
        elif place is None:
            said = re.findall(rf"must-fail {re.escape(name)}\.edit: (.*)", log) or ["it has no word of it"]
            yield f"{name}: the log doesn't say where it is refused: {said[0]}"
        elif not is_fact:
            yield f"{name}: refused in {place}, but not for a fact: {words}"
        elif name not in places:
            yield f"{name}: if this is what it shows, add to tests/refusals.txt: {name}: {place}"
        elif places[name] != place:
            yield f"{name}: refused in {place}, not in {places[name]}: {words}"


def main():
    file, *more = sys.argv[1:]
    log = Path(file).read_text(errors="replace")
    found = {name: rest for name, *rest in read(log)}
    places = stored()
    if more == ["--write"]:
        kept = {name: place for name, place in places.items() if name in edits()}
        places = {**kept, **{name: place for name, (place, is_fact, _) in found.items() if is_fact and name in edits()}}
        PLACES.write_text("".join(f"{name}: {place}\n" for name, place in sorted(places.items())))
    wrong = list(faults(log, found, places))
    print(*wrong, f"edits: {len(edits())}, {len(wrong)} not as they must be", sep="\n")
    sys.exit(bool(wrong))


if __name__ == "__main__":
    main()
