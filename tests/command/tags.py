#!/usr/bin/env python3
"""./frondicare tags: the list as its program prints it, by name and on standard input; with names and contents; refused
headers, in words and with their status. Its program has a test of its own, tests/command/tags_program.py."""
import sys
import tempfile
from pathlib import Path

if __name__ == "__main__":
    sys.path.insert(0, str(Path(__file__).resolve().parents[2]))
from model.header import DIGEST, FIRMWARE_TYPE, HINT, SIGNATURE, TIMESTAMP, VERSION
from model.refusals import in_words
from model.writer import tag
from tests.command.called import COMMAND, Caller
from tests.vectors.header_lookups import blank
from tests.vectors.tags import CASES

TITLE = "type    place  length  covered  name           content"


def check_lists(caller):
    """Byte for byte, from a file and from standard input, which is also a hyphen."""
    for name, (header, says) in CASES.items():
        lines = says.split("|")
        (caller.folder / "header").write_bytes(header)
        number = 0 if lines[-1] == "END" else int(lines[-1])
        for words, named in ((["header"], "header"), ([], "standard input"), (["-"], "standard input")):
            with open(caller.folder / "header", "rb") as file:
                done = caller.run(COMMAND, "tags", *words, stdin=file)
            assert done.stdout.splitlines() == lines and done.stdout.endswith("\n"), (name, done)
            said = f"./frondicare tags: {named}: refused: {in_words(number)}\n" if number else ""
            assert (done.returncode, done.stderr) == (int(number != 0), said), (name, done)


# Each tag, and its line from the length on.
EXPLAINED = [
    (tag(VERSION, (7).to_bytes(4, "little")), "     4  yes      version        7"),
    (tag(TIMESTAMP, (1700000000).to_bytes(8, "little")),
     "     8  yes      timestamp      1700000000 (2023-11-14 22:13:20 UTC)"),
    (tag(FIRMWARE_TYPE, b"\x01\x02"), "     2  yes      firmware type  513"),
    (tag(0x0034, b"\xaa\xbb"), "     2  yes      custom         aabb"),
    (tag(0x0034, b""), "     0  yes      custom         empty"),
    (tag(HINT, b"\x5a" * 32), f"    32  yes      key hint       {'5a' * 32}"),
    (tag(DIGEST, b"\x5b" * 32), f"    32  -        digest         {'5b' * 32}"),
    (tag(0x3400, b"\1\2\3"), "     3  no       custom         010203"),
    (tag(SIGNATURE, b"\x5c" * 3), "     3  -        signature      5c5c5c (not of 64 bytes)"),
    (tag(VERSION, b"\x08"), "     1  no       version        08 (not of 4 bytes)"),
    (tag(TIMESTAMP, bytes(8)), "     8  no       timestamp      0"),
    (tag(TIMESTAMP, b"\x09"), "     1  no       timestamp      09 (not of 8 bytes)"),
    (tag(FIRMWARE_TYPE, b""), "     0  no       firmware type  empty (not of 2 bytes)"),
    (tag(DIGEST, b"\x5d"), "     1  no       digest         5d (not of 32 bytes)"),
    (tag(HINT, b""), "     0  no       key hint       empty (not of 32 bytes)"),
    (tag(0xFF35, b"\0"), "     1  no       custom         00"),
]


def lines_of(parts):
    """The command's lines for tags one right behind the other from place 8, and the header."""
    place, lines = 8, [TITLE]
    for data, line in parts:
        lines.append(f"0x{int.from_bytes(data[:2], 'little'):04x}  {place + 4:5}  {line}")
        place += len(data)
    return lines, blank((8, b"".join(data for data, _ in parts))), place


def check_explained(caller):
    lines, header, end = lines_of(EXPLAINED)
    (caller.folder / "explained").write_bytes(header + bytes(1000))
    assert caller.said("tags", "--explain", "explained").splitlines() == [*lines, "END"]
    assert caller.said("tags", "explained", "--explain").splitlines() == [*lines, "END"]
    (caller.folder / "bad").write_bytes(header[:end] + b"\x42\0\xff\0" + header[end + 4:])
    done = caller.run(COMMAND, "tags", "--explain", "bad")
    assert (done.returncode, done.stdout.splitlines()) == (1, [*lines, "13"]) and in_words(13) in done.stderr, done


def check_few(caller):
    """No digest, so that nothing is covered; no tag; and the first and last timestamps that are shown as dates."""
    def said(header):
        (caller.folder / "few").write_bytes(header)
        return caller.run(COMMAND, "tags", "few", "--explain").stdout.splitlines()
    lines, header, _ = lines_of([(tag(0x0034, b"x"), "     1  no       custom         78"),
                                 (tag(SIGNATURE, b""), "     0  -        signature      empty (not of 64 bytes)")])
    assert said(header) == [*lines, "END"]
    assert said(blank()) == ["END"] and said(header[:255]) == ["10"] and said(b"WOLF" * 64) == ["13"]
    dates = {946684799: "", 946684800: " (2000-01-01 00:00:00 UTC)", 4102444799: " (2099-12-31 23:59:59 UTC)",
             4102444800: ""}
    for stamp, date in dates.items():
        lines = said(blank((8, tag(TIMESTAMP, stamp.to_bytes(8, "little")))))
        assert lines[1].endswith(f"  timestamp      {stamp}{date}"), lines


def main():
    with tempfile.TemporaryDirectory(prefix="tags") as name:
        caller = Caller(name)
        check_lists(caller)
        check_explained(caller)
        check_few(caller)
    print(f"tags command: {caller.calls} calls passed")


if __name__ == "__main__":
    main()
