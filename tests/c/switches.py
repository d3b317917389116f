#!/usr/bin/env python3
"""The header's enums, each in a switch as the header says it: with all names the compilers accept it, with the last one
left out -Wswitch refuses it."""
import re
import subprocess
import sys
from pathlib import Path

INCLUDE = Path(__file__).resolve().parents[2] / "include"
ENUM = re.compile(r"^enum (\w+) \{$(.*?)^\};$", re.MULTILINE | re.DOTALL)
COMPILERS = [["gcc"], ["gcc", "-fshort-enums"], ["clang"]]


def refused_for(compiler, enum, names):
    """What -Wswitch says of a switch with these names."""
    cases = "".join(f"    case {name}: return 1;\n" for name in names)
    text = f'#include "frondicare.h"\nint f(uint32_t x)\n{{\n    switch ((enum {enum})x) {{\n{cases}'
    command = [*compiler, "-fsyntax-only", "-Wall", "-Wextra", "-Wswitch", "-Werror", f"-I{INCLUDE}", "-xc", "-"]
    done = subprocess.run(command, input=f"{text}    }}\n    return 0;\n}}\n", capture_output=True, text=True)
    assert (done.returncode == 0) == (done.stderr == ""), done.stderr
    return done.stderr


def main():
    enums = {name: re.findall(r"\bFRONDICARE_\w+(?= =)", body)
             for name, body in ENUM.findall((INCLUDE / "frondicare.h").read_text())}
    wrong = [] if len(enums) == 5 and min(map(len, enums.values())) > 3 else [f"enums: {enums}"]
    for enum, names in enums.items():
        for compiler in COMPILERS:
            if said := refused_for(compiler, enum, names):
                wrong.append(f"{enum}: {said}")
            if names[-1] not in (said := refused_for(compiler, enum, names[:-1])) or "switch]" not in said:
                wrong.append(f"{enum}, {' '.join(compiler)}: {names[-1]} can be left out. {said}")
    print(*wrong or [f"C switches: {len(enums)} enums, a name left out is refused"], sep="\n")
    sys.exit(bool(wrong))


main()
