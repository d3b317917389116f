#!/usr/bin/env python3
"""Counts the places of the older language's forms in crates/*/src, of the working tree or of a commit; with --list
also names them. docs/DESIGN-PASS.md says what each form is and what became of it."""
import argparse
import re
import subprocess
from collections import Counter, defaultdict

FUNCTION = re.compile(
    r"^( *)(?:pub(?:\(crate\))? )?(?:extern \"C\" )?fn (\w+)(?:<[^>]*>)?\((.*?)\)(?: -> ([^\n{]+?))?"
    r"(?=\n| \{)(.*?)^\1\}", re.MULTILINE | re.DOTALL)
TYPE = re.compile(r"^(?:pub(?:\(crate\))? )?(enum|struct) (\w+)[^;{(]*\{\n(.*?)^\}", re.MULTILINE | re.DOTALL)
NONE = re.compile(r"^ +(Refused|Stop|None|NotSound|Any|Finished|No[A-Z]\w*)\b", re.MULTILINE)
FLAG = re.compile(r"^ +(?:pub(?:\(crate\))? )?(number|did|ended|known|turned|more|failure|uncovered): ", re.MULTILINE)
TOGETHER = {
    "flash and geometry": r"flash: &(mut )?\[u8\],\s+g: Geometry",
    "the checker's two answers": r"boot_signed: bool,\s+update_signed: bool",
    "what a header is written of": r"firmware: &\[u8\],\s+custom: &\[u8\]",
    "a message's rest in two pieces": r"first: &\[u8\],\s+second: &\[u8\],\s+n: usize",
    "geometry and a flash's length": r"g: Geometry,\s+len: usize",
    "a trailer": r"\bt: &\[u8\]",
}


def git(*words):
    return subprocess.run(["git", *words], capture_output=True, text=True, check=True).stdout


def sources(commit):
    names = git("ls-tree", "-r", "--name-only", commit, "crates") if commit else git("ls-files", "crates")
    for name in names.split():
        if re.fullmatch(r"crates/\w+/src/\w+\.rt", name):
            yield name, git("show", f"{commit}:{name}") if commit else open(name).read()


def code(text):
    return re.sub(r"//.*", "", text)


def normal(body):
    """The shape of a function's body: its names and numbers left out."""
    body = re.sub(r"\n +(requires|ensures)\b.*?(?=\n\s*(?:requires|ensures|\{))", "", code(body), flags=re.DOTALL)
    return re.sub(r"\s+", " ", re.sub(r"\w+", "x", body))


def places(commit):
    found, shapes, asked, together = defaultdict(list), defaultdict(list), defaultdict(list), defaultdict(list)
    for name, text in sources(commit):
        crate = name.split("/")[1]
        for kind, type_name, fields in TYPE.findall(text):
            if kind == "enum" and NONE.search(fields):
                found["1a own enums of the shape of Option or Result"].append(f"{name} {type_name}")
            if kind == "struct" and FLAG.search(fields):
                found["1b structs with a flag or a number beside a value"].append(f"{name} {type_name}")
        for _, function, parameters, answer, body in FUNCTION.findall(text):
            place = f"{name} {function}"
            if answer.strip() == "u32" and crate != "sha256" and function not in ("u32_at", "number"):
                found["1c functions that answer a refusal's number"].append(place)
            if len(normal(body)) > 60:
                shapes[normal(body)].append(place)
            for clause in re.findall(r"requires(?: \w+)? \{(.*)\}", body):
                asked[clause.strip()].append(place)
            for what, form in TOGETHER.items():
                if re.search(form, parameters):
                    together[what].append(place)
            if re.search(r"&mut \[u8\]", parameters) and answer.strip() == "usize":
                found["6 buffers filled, and a length answered"].append(place)
        for number, line in enumerate(text.splitlines(), 1):
            line, place = code(line), f"{name}:{number}"
            if re.search(r"(Refused|Stop)\(\d+\)|return \d+;|number (==|!=) \d+|^ +\d+$", line):
                found["1d refusals' numbers in the code"].append(place)
            if re.match(r" *(while|loop)\b", line):
                found["3 while and loop"].append(place)
            if re.match(r" *for \w+ in [^{]*\.\.", line):
                found["3 for over a range of numbers"].append(place)
            if re.search(r" as (u8|u16|u32|u64|usize)\b", line) and "use " not in line:
                found["4 conversions by as"].append(place)
    for alike in shapes.values():
        if len(alike) > 1:
            found["2 functions of the same shape"].append(", ".join(alike))
    for clause, where in asked.items():
        if len(where) > 2:
            found["5 requires that stand three times"] += [f"{place}: {clause}" for place in where]
    for what, where in together.items():
        if len(where) > 2:
            found["5 parameters that travel together"] += [f"{place}: {what}" for place in where]
    return found


def main():
    parser = argparse.ArgumentParser(description=__doc__)
    parser.add_argument("commit", nargs="?", help="a commit; without it the working tree")
    parser.add_argument("--list", action="store_true", help="each place")
    asked = parser.parse_args()
    found = places(asked.commit)
    for form in sorted(found):
        print(f"{len(found[form]):4}  {form}")
        if asked.list:
            print(*(f"          {place}" for place in found[form]), sep="\n")
    if asked.list:
        crates = Counter(place.split("/")[1] for form in found.values() for place in form)
        print("by crate:", ", ".join(f"{crate} {count}" for crate, count in sorted(crates.items())))


if __name__ == "__main__":
    main()
