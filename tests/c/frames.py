#!/usr/bin/env python3
"""The stack frame of each function in the static library, read from its machine code (x86-64). Fails where one is
above 512 bytes, so that no function has a larger buffer. A frame is all that the function pushes and takes from the
stack pointer, in all its branches together, and what it uses below without moving it. An argument names another
library."""
import re
import subprocess
import sys

LIBRARY = "crates/frondicare/out/libfrondicare.a"
MOST = 512
ENTRIES = 19

FUNCTION = re.compile(r"[0-9a-f]+ <(.+)>:$")
PUSH = re.compile(r"\tpush ")
MOVED = re.compile(r"\t(sub|add) +\$0x([0-9a-f]+),%rsp$")
BELOW = re.compile(r"-0x([0-9a-f]+)\(%rsp")
CHANGED = re.compile(r",%rsp$|\t(enter|leave)")


def taken(line):
    """What an instruction takes from the stack pointer."""
    if PUSH.search(line):
        return 8
    if moved := MOVED.search(line):
        number = int(moved[2], 16)
        down = number if moved[1] == "sub" else 2**64 - number
        return down if down < 2**63 else 0
    if CHANGED.search(line):
        sys.exit(f"a stack pointer changed in another way: {line}")
    return 0


def frames(text):
    """Each function's name and frame."""
    sizes, below, name = {}, {}, None
    for line in text.splitlines():
        if function := FUNCTION.match(line):
            name = function[1]
            sizes[name] = below[name] = 0
        elif name:
            sizes[name] += taken(line)
            below[name] = max([below[name], *(int(number, 16) for number in BELOW.findall(line))])
    return {name: sizes[name] + below[name] for name in sizes}


def main():
    library = sys.argv[1] if len(sys.argv) > 1 else LIBRARY
    command = ["objdump", "--disassemble", "--no-show-raw-insn", library]
    found = frames(subprocess.run(command, check=True, capture_output=True, text=True).stdout)
    largest = sorted(found.items(), key=lambda item: -item[1])
    for name, size in largest[:5]:
        print(f"frame of {name}: {size} bytes")
    entries = sum(name.startswith("frondicare_") for name in found)
    above = sum(size > MOST for size in found.values())
    print(f"frames: {len(found)} functions, {entries} of them entries, {above} above {MOST} bytes")
    sys.exit(entries != ENTRIES or above > 0)


main()
