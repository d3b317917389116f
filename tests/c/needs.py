#!/usr/bin/env python3
"""What include/frondicare.h says that the library needs, read off its machine code: its size, no data that is written,
what is to be linked beside it, no instructions beyond SSE2, and the stack of the deepest chain of calls
(tests/c/stack.c measures single calls)."""
import re
import subprocess
import sys
from functools import cache
from pathlib import Path

ROOT = Path(__file__).resolve().parents[2]
LIBRARY = ROOT / "crates/frondicare/out/libfrondicare.a"
LINKED = ["memset"]
# What SSE3 to SSE4.2 brought, and AVX.
BEYOND = re.compile(r"\t(v[a-z]\w+|popcnt|crc32|lddqu|addsubp.|h(?:add|sub)p.|mov(?:d|sh|sl)dup|pshufb"
                    r"|ph(?:add|sub)\w+|pmaddubsw|pmulhrsw|psign.|pabs.|palignr|p?blend\w+|dpp.|(?:extract|insert)ps"
                    r"|mpsadbw|packusdw|pcmp(?:eq|gt)q|p(?:extr|insr)[bdq]|phminposuw|p(?:max|min)(?:sb|sd|ud|uw)"
                    r"|pmov[sz]x\w+|pmuldq|pmulld|ptest|round[ps].|movntdqa|pcmp[ei]str.)\b")
ADDRESS, ARGUMENTS = 8, 6 * 8  # a call pushes its return address; an entry's caller, at most so many of its arguments


def output_of(*command):
    return subprocess.run([*command, LIBRARY], check=True, capture_output=True, text=True).stdout


def frame(code):
    """All that a function takes from the stack pointer, in all its branches together, and what it uses below."""
    down = [int(number, 16) for number in re.findall(r"\tsub +\$0x([0-9a-f]+),%rsp$", code, re.MULTILINE)]
    down += [2**64 - int(number, 16) for number in re.findall(r"\tadd +\$0x([0-9a-f]{16}),%rsp$", code, re.MULTILINE)]
    below = [int(number, 16) for number in re.findall(r"-0x([0-9a-f]+)\(%rsp", code)]
    return ADDRESS * len(re.findall(r"\tpush ", code)) + sum(down) + max(below, default=0)


def deepest(text):
    """{entry: the stack of its deepest chain of calls}; what memset takes is not in it."""
    pieces = re.split(r"^[0-9a-f]+ <(.+)>:$", text, flags=re.MULTILINE)[1:]
    codes = dict(zip(pieces[::2], pieces[1::2]))
    assert not re.search(r"\tcall +\*", text), "a call of what is not named"

    @cache
    def depth(name):
        called = set(re.findall(r"R_X86_64_PLT32\t(?:\.text\.)?(\S+)-0x4$", codes[name], re.MULTILINE)) - set(LINKED)
        return frame(codes[name]) + max((ADDRESS + depth(other) for other in called), default=0)

    return {name: ARGUMENTS + ADDRESS + depth(name) for name in codes if name.startswith("frondicare_")}


def main():
    header = " ".join(re.sub(r"\n \*", " ", (ROOT / "include/frondicare.h").read_text()).split())
    stack = int(re.search(r"A call takes at most ([\d,]+) bytes of stack", header)[1].replace(",", ""))
    code = int(re.search(r"The code has (\d+) KB at most, no data that is written, and calls memset and", header)[1])
    text, data, bss = map(int, output_of("size").splitlines()[1].split()[:3])
    linked = re.findall(r" U (\w+)", output_of("nm"))
    disassembled = output_of("objdump", "--disassemble", "--reloc", "--no-show-raw-insn")
    beyond = sorted(set(BEYOND.findall(disassembled)))
    entry, most = max(deepest(disassembled).items(), key=lambda item: item[1])
    print(f"needs: {text} bytes of code, {data + bss} of written data, {most} of stack ({entry}); calls", *linked)
    print("instructions beyond SSE2:", *beyond or ["none"])
    sys.exit(text > 1000 * code or data + bss > 0 or most > stack or linked != LINKED or beyond != [])


main()
