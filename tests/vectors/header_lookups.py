"""Cases of lookup and view."""
from model.header import HINT, VERSION
from model.writer import tag
from tests.vectors.header_case import Case

FREE = 0x0042


def blank(*parts):
    """A header of FF, with bytes at some places."""
    header = bytearray(b"\xff" * 256)
    for place, data in parts:
        header[place:place + len(data)] = data
    return bytes(header)


def hexed(text):
    return bytes.fromhex(text)


def find(name, header, kind, says):
    return Case(name, "F", header, says, kind=kind)


def find_from(name, header, start, kind, says):
    """Of any type where that is None."""
    return Case(name, "L", header, says, kind=kind or 0, any=int(kind is None), start=start)


def view(name, header, kind, says):
    return Case(name, "W", header, says, kind=kind)


VERSION_5 = blank((8, hexed("FF FF 01 00 04 00 05 00 00 00")))
TWO = blank((8, tag(FREE, b"first") + tag(FREE, b"second")))
BAD_AFTER = blank((8, tag(FREE, b"ok")), (20, hexed("43 00 FF FF")))
MIXED = blank((8, tag(HINT, b"hint") + tag(FREE, b"")), (30, tag(FREE, b"again")))
WITHIN = blank((8, tag(FREE, tag(VERSION, b"1234") + b"\xff")))
ENDED = blank((8, tag(FREE, b"ok") + hexed("00 00 03 00") + tag(VERSION, b"late")))

# Document 01's bench cases, with the answers that it states.
BENCH = [
    find("version after padding", VERSION_5, VERSION, "14 4"),
    view("version's value", VERSION_5, VERSION, "05000000"),
    find("tag at 252 of length 0 fits", blank((252, hexed("42 00 00 00"))), FREE, "256 0"),
    find("tag at 252 of length 1", blank((252, hexed("42 00 01 00"))), FREE, "REFUSE 13"),
    find("byte 01 at 253", blank((253, b"\x01")), FREE, "REFUSE 13"),
    find("byte 00 at 253", blank((253, b"\x00")), FREE, "REFUSE 13"),
]
CASES = BENCH + [
    find("bytes 00 00 from 254", blank((254, b"\x00\x00")), FREE, "REFUSE 13"),
    find("byte 00 at 255", blank((255, b"\x00")), FREE, "REFUSE 13"),
    find("type 0000 at 252 ends the walk", blank((252, hexed("00 00 01 00"))), FREE, "REFUSE 25"),
    find("all padding", blank(), FREE, "REFUSE 25"),
    find("tag at 8", blank((8, tag(FREE, b"abc"))), FREE, "12 3"),
    find("tag at 251 of length 1 fits", blank((251, tag(FREE, b"x"))), FREE, "255 1"),
    find("tag at 8 up to 256 fits", blank((8, tag(FREE, bytes(244)))), FREE, "12 244"),
    find("tag at 8 of length 245", blank((8, hexed("42 00 F5 00"))), FREE, "REFUSE 13"),
    find("length's high byte counts", blank((8, hexed("42 00 00 01"))), FREE, "REFUSE 13"),
    find("greatest length", blank((8, hexed("42 00 FF FF"))), FREE, "REFUSE 13"),
    find("type 0100 is ordinary", blank((8, tag(0x0100, b"ab"))), 0x0100, "12 2"),
    find("type FF34 is ordinary", blank((8, tag(0xFF34, b"ab"))), 0xFF34, "12 2"),
    find("type 34FF is padding, then 0034", blank((8, hexed("FF 34 00 02 00"))), 0x0034, "13 2"),
    find("type 34FF is not found", blank((8, hexed("FF 34 00 02 00"))), 0x34FF, "REFUSE 25"),
    find("type 01FF is padding, then version", blank((8, hexed("FF 01 00 04 00"))), VERSION, "13 4"),
    find("type 01FF is not found", blank((8, hexed("FF 01 00 04 00"))), 0x01FF, "REFUSE 25"),
    find("type FF01 isn't version", blank((8, hexed("01 FF 04 00"))), VERSION, "REFUSE 25"),
    find("first match", TWO, FREE, "12 5"),
    view("view of the first match", TWO, FREE, b"first".hex()),
    find("match after another tag", blank((8, tag(HINT, bytes(32)) + tag(FREE, b"x"))), FREE, "48 1"),
    find("match between paddings", blank((100, tag(VERSION, b"v")), (120, tag(FREE, b"xyz"))), FREE, "124 3"),
    find("type within a content is not found", blank((8, tag(FREE, tag(VERSION, b"1234")))), VERSION, "REFUSE 25"),
    find("padding within a content is content", blank((8, tag(FREE, b"\xff" * 9) + tag(HINT, b"h"))), HINT, "25 1"),
    find("tags of length 0 in a row", blank((8, tag(FREE, b"") + tag(HINT, b"") + tag(FREE, b""))), HINT, "16 0"),
    find("bad tag after the match isn't met", BAD_AFTER, FREE, "12 2"),
    find("bad tag before the match", BAD_AFTER, HINT, "REFUSE 13"),
    find("bad tag of the type itself", BAD_AFTER, 0x0043, "REFUSE 13"),
    find("match before type 0000", ENDED, FREE, "12 2"),
    find("tag after type 0000 isn't met", ENDED, VERSION, "REFUSE 25"),
    find("lookup of 0000 where it ends the walk", ENDED, 0x0000, "REFUSE 25"),
    find("lookup of 0000 in padding", blank(), 0x0000, "REFUSE 25"),
    find("lookup of 0000 meets a bad tag", BAD_AFTER, 0x0000, "REFUSE 13"),
    find("lookup of FFFF in padding", blank(), 0xFFFF, "REFUSE 25"),
    find("lookup of 00FF meets a bad tag", BAD_AFTER, 0x00FF, "REFUSE 13"),
    find("empty header", b"", FREE, "REFUSE 10"),
    find("header of 255 bytes", blank((8, tag(FREE, b"abc")))[:255], FREE, "REFUSE 10"),
    find("header of 300 bytes", blank((250, tag(FREE, b"ab"))) + bytes(44), FREE, "254 2"),
    find("tag past 256 in a longer header", blank((250, hexed("42 00 03 00"))) + bytes(44), FREE, "REFUSE 13"),
    find("tag's type across 256 in a longer header", blank((253, b"\x42\x00\x01")) + bytes(44), FREE, "REFUSE 13"),
    find("tag at 256 in a longer header", blank() + tag(FREE, b"abc") + bytes(37), FREE, "REFUSE 25"),
    view("view of a tag of length 0 is empty", blank((8, tag(FREE, b""))), FREE, ""),
    view("view of a tag at 252 is empty", blank((252, tag(FREE, b""))), FREE, ""),
    view("view of an absent tag is empty", blank(), FREE, ""),
    view("view behind a bad tag is empty", BAD_AFTER, HINT, ""),
    view("view of a short header is empty", TWO[:255], FREE, ""),
    view("view up to 256", blank((250, tag(FREE, b"\x01\x02"))), FREE, "0102"),
] + [
    find_from("any tag from 8", MIXED, 8, None, "16 12 4 16"),
    find_from("any tag from where the first one leads", MIXED, 16, None, "66 20 0 20"),
    find_from("any tag from a padding", MIXED, 20, None, "66 34 5 39"),
    find_from("any tag from behind the last one", MIXED, 39, None, "REFUSE 25"),
    find_from("a type from 8", MIXED, 8, FREE, "66 20 0 20"),
    find_from("a type from behind its first tag", MIXED, 20, FREE, "66 34 5 39"),
    find_from("a type from behind its only tag", MIXED, 16, HINT, "REFUSE 25"),
    find_from("a repeated type from its second tag's place", TWO, 17, FREE, "66 21 6 27"),
    find_from("from within a content, a tag stands there", WITHIN, 12, None, "1 16 4 20"),
    find_from("from within a content, of its own type", WITHIN, 12, FREE, "REFUSE 25"),
    find_from("from a tag's length", WITHIN, 10, None, "9 14 1 15"),
    find_from("from a content's last byte of padding", WITHIN, 20, None, "REFUSE 25"),
    find_from("from within a content that reads as a bad tag", blank((8, tag(FREE, b"wide"))), 13, None, "REFUSE 13"),
    find_from("start 7", MIXED, 7, None, "REFUSE 31"),
    find_from("start 0", MIXED, 0, HINT, "REFUSE 31"),
    find_from("start 256", MIXED, 256, None, "REFUSE 25"),
    find_from("start 256 behind a bad tag", BAD_AFTER, 256, None, "REFUSE 25"),
    find_from("start 256 in a longer header", blank() + tag(FREE, b"abc") + bytes(37), 256, None, "REFUSE 25"),
    find_from("start 257", MIXED, 257, None, "REFUSE 31"),
    find_from("start 257 in a longer header", blank() + bytes(44), 257, None, "REFUSE 31"),
    find_from("start 65535", MIXED, 65535, HINT, "REFUSE 31"),
    find_from("start 255 in padding", blank(), 255, None, "REFUSE 25"),
    find_from("start 253 at a byte", blank((253, b"\x01")), 253, None, "REFUSE 13"),
    find_from("start 252 at a tag of length 0", blank((252, tag(FREE, b""))), 252, None, "66 256 0 256"),
    find_from("short header before a bad start", MIXED[:255], 7, None, "REFUSE 10"),
    find_from("empty header, any tag", b"", 8, None, "REFUSE 10"),
    find_from("bad start before a bad tag", BAD_AFTER, 257, None, "REFUSE 31"),
    find_from("bad tag from its place", BAD_AFTER, 20, None, "REFUSE 13"),
    find_from("any tag before a bad one", BAD_AFTER, 8, None, "66 12 2 14"),
    find_from("type 0000 ends the walk for any type", ENDED, 14, None, "REFUSE 25"),
    find_from("from behind type 0000", ENDED, 18, None, "1 22 4 26"),
    find_from("type 0000 is none, not any", MIXED, 8, 0x0000, "REFUSE 25"),
    find_from("type FFFF is none, not any", MIXED, 8, 0xFFFF, "REFUSE 25"),
    find_from("any type, with padding before it", VERSION_5, 8, None, "1 14 4 18"),
    find_from("type FF34 is one of any", blank((8, tag(0xFF34, b"ab"))), 8, None, "65332 12 2 14"),
]
