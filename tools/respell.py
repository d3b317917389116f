#!/usr/bin/env python3
"""Brings the repository's own definitions and lemmas to the spelling of today's Rattle.

usage: python3 tools/respell.py [--list]    at the top, once, right after port.py

A definition, field or lemma that specs/ or a lemma file of proofs/ declares gets snake case: imageSize is image_size. A
dash stays where it joins the names of two definitions, as in length-overlay; before or after a plain word it becomes _.
Functions of src/ keep their names. Names that would fall together with another are left with a word more (KEPT).
--list prints old and new, and changes nothing.
"""

import collections
import os
import re
import subprocess
import sys

NAME = r"[A-Za-z_\u03b1-\u03c9\u2080-\u2089\u0391-\u03a9][\w'\u2080-\u2089-]*"
DECLARED = re.compile(
    rf"^\s*(?:abbrev\s+|unfoldable\s+)?(?:pub\s+)?((?:record|data)\s+)?({NAME})\s*(?:[({{].*)?:(?![:=])"
)
# words of the library that a lemma's name may join by a dash
LIBRARY = set(
    "length take drop set get_or replicate append map reverse sum add mul sub div mod pow min max eq le lt "
    "cond and or not eqb leb ltb zero one suc bit_and bit_or bit_xor".split()
)
RENAMED = {"getD": "get_or"}
# old name: new name, where the rule would give a name that stands for something else already
KEPT = {
    "firmwareType": "firmware_type_type",
    "mostSteps": "most_steps_of",
    "boot-or": "boot_or_lem",
    "go-back": "go_back_lem",
    "mark-place": "mark_place_lem",
    "of-kind": "of_kind_lem",
    "on-trial": "on_trial_lem",
    "ring-word": "ring_word_lem",
    "signature-tag": "signature_tag_lem",
    "well-formed": "well_formed_lem",
    "head-of": "head_of_lem",
    "or-else": "or_else_lem",
    "paper-board": "paper_board_lem",
    "number-at": "number_at_lem",
    "byte-at": "byte_at_lem",
}


def files(*endings):
    out = subprocess.run(["git", "ls-files", "-z"], capture_output=True, text=True, check=True).stdout
    return [p for p in out.split("\0") if p.endswith(endings) and os.path.exists(p)]


def read(path):
    with open(path, encoding="utf-8") as f:
        return f.read()


def declared():
    """The names that lemma files and specs/ declare, each with whether it is a definition (lower case in specs/)."""
    names = {}
    for p in files(".antt"):
        if re.search(r"/proofs/.*/(?:Proof|Answers|Invariants)\.antt$", p):
            continue
        for line in read(p).splitlines():
            if line.lstrip().startswith(("--", "use ", "let ", "module", "elim", "|")):
                continue
            m = DECLARED.match(line)
            if m:
                names[m.group(2)] = names.get(m.group(2), False) or "/specs/" in p
    return names


def snake(word):
    return re.sub(r"(?<=[a-z0-9])([A-Z])", lambda m: "_" + m.group(1).lower(), word)


def respelled(name, known):
    parts = [RENAMED.get(p, p if p[:1].isupper() else snake(p)) for p in name.split("-")]
    new = parts[0]
    for left, right in zip(parts, parts[1:]):
        joins = left in known and right in known or left[:1].isupper() or right[:1].isupper()
        new += ("-" if joins else "_") + right
    return new


def table():
    names = declared()
    known = LIBRARY | {snake(n) for n, spec in names.items() if spec and "-" not in n and not n[0].isupper()}
    pairs = {}
    for n in sorted(names):
        if n[0].isupper() and "-" not in n:
            continue
        new = KEPT.get(n) or respelled(n, known)
        if new != n:
            pairs[n] = new
    return pairs


def tokens(text):
    return set(re.findall(NAME, text))


def fallen(pairs):
    """New names that two old ones share, or that stand somewhere already."""
    by = collections.defaultdict(list)
    for old, new in pairs.items():
        by[new].append(old)
    for new, olds in sorted(by.items()):
        if len(olds) > 1:
            yield f"{new}: {', '.join(olds)}"
    for p in files(".antt", ".rt"):
        here = tokens(read(p))
        for old, new in pairs.items():
            if new in here and old in here:
                yield f"{p}: {old} would be {new}, which stands there"


def main():
    pairs = table()
    if "--list" in sys.argv:
        for old, new in sorted(pairs.items()):
            print(old, new)
        for line in fallen(pairs):
            print("fallen together:", line)
        return
    token = re.compile(rf"(?<![\w'-])(?:{'|'.join(sorted(map(re.escape, pairs), key=len, reverse=True))})(?![\w'-])")
    turn = lambda text: token.sub(lambda m: pairs[m.group(0)], text)  # noqa: E731
    for p in files(".antt", ".rt", ".edit", ".diff"):
        old = read(p)
        new = turn(old)
        if new != old:
            with open(p, "w", encoding="utf-8") as f:
                f.write(new)
    for p in files(".md"):
        old = read(p)
        new = re.sub(r"`[^`\n]+`", lambda m: turn(m.group(0)), old)
        if new != old:
            with open(p, "w", encoding="utf-8") as f:
                f.write(new)


if __name__ == "__main__":
    main()
