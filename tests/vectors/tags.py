#!/usr/bin/env python3
"""Headers with the lists of their tags, as a reader of the papers can write them down; the reference model is held to
them. One is the stored run of the program tags.
Usage: tags.py stdin > crates/tags/stdin, and tags.py stdout > crates/tags/stdout"""
import sys
from pathlib import Path

if __name__ == "__main__":
    sys.path.insert(0, str(Path(__file__).resolve().parents[2]))
from model.header import DIGEST, FIRMWARE_TYPE, HINT, SIGNATURE, TIMESTAMP, VERSION, listed
from model.writer import tag
from tests.vectors.header_lookups import BAD_AFTER, ENDED, FREE, blank, hexed
from tests.vectors.stored import print_file

# A written header's tags, with custom ones: one of them twice, one empty, one with FF as its high type byte. Then
# padding, a tag, and the end of the header; the firmware that follows is not looked at.
TAGS = (tag(VERSION, bytes(4)) + tag(TIMESTAMP, bytes(8)) + tag(FIRMWARE_TYPE, bytes(2)) + tag(0x0034, b"one")
        + tag(0x0034, b"three") + tag(0xFF35, b"") + tag(HINT, bytes(32)) + tag(DIGEST, bytes(32))
        + tag(SIGNATURE, bytes(64)))
STORED = blank((0, b"WOLF\x10\0\0\0" + TAGS), (240, tag(0x0100, bytes(12)))) + tag(0x0036, bytes(12))
STORED_LIST = "1 12 4|2 20 8|48 32 2|52 38 3|52 45 5|65333 54 0|16 58 32|3 94 32|32 130 64|256 244 12|END"

MOST = blank((8, hexed("34 12 00 00") * 62))
CASES = {
    "the stored run": (STORED, STORED_LIST),
    "no tags": (blank(), "END"),
    "no tags, type 0000 at once": (blank((8, bytes(4))), "END"),
    "62 tags of length 0": (MOST, "|".join(f"4660 {at} 0" for at in range(12, 257, 4)) + "|END"),
    "61 tags of length 0 and one of length 1": (MOST[:254] + b"\1\0", "|".join(
        f"4660 {at} 0" for at in range(12, 253, 4)) + "|13"),
    "padding everywhere": (blank(*[(p, tag(FREE, b"\xff")) for p in range(9, 249, 7)]), "|".join(
        f"66 {p + 4} 1" for p in range(9, 249, 7)) + "|END"),
    "one tag up to 256": (blank((8, tag(FREE, bytes(244)))), "66 12 244|END"),
    "bad tag at the end": (blank((8, tag(FREE, b"ok")), (252, hexed("42 00 01 00"))), "66 12 2|13"),
    "bad tag alone": (blank((8, hexed("42 00 F5 00"))), "13"),
    "bad tag after one": (BAD_AFTER, "66 12 2|13"),
    "a byte at 255": (blank((8, tag(FREE, b"ok")), (255, b"\0")), "66 12 2|13"),
    "repeats": (blank((8, tag(VERSION, b"a") * 3)), "1 12 1|1 17 1|1 22 1|END"),
    "custom tags, and FF before each": (
        blank((8, b"\xff" + tag(0x3400, b"x") + b"\xff" + tag(FREE, b""))), "13312 13 1|66 19 0|END"),
    "tags behind type 0000": (ENDED, "66 12 2|END"),
    "tags in a content": (blank((8, tag(FREE, tag(VERSION, bytes(4))))), "66 12 8|END"),
    "another mark": (b"LOAD" + blank((8, tag(FREE, b"ok")))[4:], "66 12 2|END"),
    "longer by a tag": (blank() + tag(FREE, b"abc"), "END"),
    "good only with what follows 256": (blank((252, hexed("42 00 04 00"))) + b"abcd", "13"),
    "255 bytes": (MOST[:255], "10"),
    "no byte": (b"", "10"),
}


def text(header):
    tags, number = listed(header)
    lines = [f"{kind} {at} {length}" for kind, at, length in tags]
    return "\n".join([*lines, "END" if number == 25 else str(number), ""])


def main():
    for name, (header, says) in CASES.items():
        assert text(header) == says.replace("|", "\n") + "\n", (name, text(header))
    print_file({"stdin": STORED, "stdout": text(STORED).encode("ascii")})


if __name__ == "__main__":
    main()
