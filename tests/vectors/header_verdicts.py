"""Cases of the verdict, and of the version of an image that passes checks 10 to 16 and 30."""
import hashlib
import struct

from model.header import DIGEST, FIRMWARE_TYPE, HINT, MARK, SIGNATURE, TIMESTAMP, VERSION
from model.writer import tag
from tests.vectors.header_case import Case

FIRMWARE = bytes(range(0x11, 0x19))
PAD = b"\xff"
V, T, D = tag(VERSION, b"\x05\x00\x00\x00"), tag(TIMESTAMP, bytes(8)), tag(DIGEST, bytes(32))
S, Y, H = tag(SIGNATURE, b"s" * 64), tag(FIRMWARE_TYPE, b"\x01\x00"), tag(HINT, b"h" * 32)
C = tag(0x0042, b"custom")
BAD = b"\x42\x00\xff\x00"
NAMES = {V: "version", T: "timestamp", D: "digest", S: "signature", Y: "firmware type"}


def image(*tags, firmware=FIRMWARE, size=None):
    """An image with these tags in a row. The first digest tag gets the right content."""
    size = len(firmware) if size is None else size
    header = (MARK + struct.pack("<I", size) + b"".join(tags)).ljust(256, PAD)
    place = header.find(D)
    if place >= 0:
        digest = hashlib.sha256(header[:place] + firmware[:size]).digest()
        header = header[:place + 4] + digest + header[place + 36:]
    return header[:256] + firmware


def changed(data, place, value):
    return data[:place] + bytes([value]) + data[place + 1:]


def sized(data, size):
    return data[:4] + struct.pack("<I", size) + data[8:]


def verify(name, data, says, signature_ok=1):
    says = says if says == "PASS" else f"REFUSE {says}"
    return Case(name, "V", data, says, signature_ok=signature_ok)


def version(name, data, says):
    return Case(name, "N", data, says)


def longer(data):
    """A tag with one byte more of content."""
    return tag(int.from_bytes(data[:2], "little"), data[4:] + b"\x00")


def shorter(data):
    return tag(int.from_bytes(data[:2], "little"), data[4:-1])


def without(data):
    return [other for other in (V, T, Y, D, S) if other != data]


def in_place_of(data, *others):
    return [x for kept in (V, T, Y, D, S) for x in (others if kept == data else [kept])]


def each_mandatory():
    cases = []
    for data, name in NAMES.items():
        cases += [
            verify(f"{name} missing", image(*without(data)), 14),
            verify(f"{name} repeated", image(V, T, Y, D, S, data), 15),
            verify(f"{name} too short", image(*in_place_of(data, shorter(data))), 16),
            verify(f"{name} too long", image(*in_place_of(data, longer(data))), 16),
            verify(f"{name} repeated and too short", image(*in_place_of(data, shorter(data), data)), 15),
        ]
    return cases


# a type that the digest has to cover, with the tags of an image in which it stands right behind the digest.
LATE = {"version": (T, Y, D, V, S), "timestamp": (V, Y, D, T, S), "firmware type": (V, T, D, Y, S)}


def uncovered():
    """Each of these, alone and with numbers that come before it and behind it. The digest is right where nothing else
    is said."""
    cases = []
    for name, tags in LATE.items():
        first, second, _, late, _ = tags
        content = 8 + len(first + second + D) + 4
        cases += [
            verify(f"{name} uncovered", image(*tags), 30),
            verify(f"{name} uncovered, behind the signature", image(first, second, D, S, late), 30),
            verify(f"{name} uncovered, padding between", image(PAD, first, second, D, PAD * 9, late, PAD, S), 30),
            verify(f"{name} uncovered and changed", changed(image(*tags), content, 9), 30),
            verify(f"{name} uncovered and too long", image(first, second, D, longer(late), S), 16),
            verify(f"{name} uncovered twice", image(first, second, D, late, late, S), 15),
            verify(f"{name} covered and uncovered", image(late, *tags), 15),
            verify(f"13 before {name} uncovered", image(*tags, BAD), 13),
            verify(f"14 before {name} uncovered", image(first, second, D, late), 14),
            verify(f"15 before {name} uncovered, digest repeated", image(first, second, D, late, D, S), 15),
            verify(f"16 before {name} uncovered, digest too long", image(first, second, longer(D), late, S), 16),
            verify(f"16 before {name} uncovered, signature too short", image(first, second, D, late, shorter(S)), 16),
            verify(f"{name} uncovered before 17", changed(image(*tags), 256, 0), 30),
            verify(f"{name} uncovered before 18", image(*tags), 30, signature_ok=0),
        ]
    return cases


UNCOVERED = [
    verify("digest tag first", image(D, V, T, Y, S), 30),
    verify("tags in reverse", image(S, D, H, Y, T, V), 30),
    verify("signature first, firmware type behind the digest", image(S, V, T, D, Y), 30),
    verify("10 before version uncovered", image(T, Y, D, V, S)[:255], 10),
    verify("11 before version uncovered", changed(image(T, Y, D, V, S), 0, 0), 11),
    verify("12 before version uncovered", sized(image(T, Y, D, V, S), 0), 12),
    verify("14 before version uncovered, timestamp missing", image(Y, D, V, S), 14),
    verify("14 before version uncovered, firmware type missing", image(T, D, V, S), 14),
    verify("15 before version uncovered, signature repeated", image(T, Y, D, V, S, S), 15),
    verify("15 before version uncovered, firmware type repeated", image(T, Y, D, V, Y, S), 15),
    verify("16 before version uncovered, firmware type too short", image(T, D, V, shorter(Y), S), 16),
]
PLAIN = image(V, T, Y, H, D, S)
HALF = image(V, T, Y, D, S, firmware=bytes(256))
# Document 01's bench cases, in an image of 512 bytes, with the answers that it states.
BENCH = [
    verify("size 256 in 512 bytes fits", HALF, "PASS"),
    verify("size 257 in 512 bytes", sized(HALF, 257), 12),
    verify("size 0 in 512 bytes", sized(HALF, 0), 12),
]
REFUSED = [
    verify("empty image", b"", 10),
    verify("image of 255 bytes", PLAIN[:255], 10),
    verify("10 before 11", bytes(255), 10),
    *[verify(f"mark wrong at {i}", changed(PLAIN, i, PLAIN[i] ^ 0x20), 11) for i in range(4)],
    verify("11 before 12", sized(changed(PLAIN, 0, 0), 0), 11),
    verify("no firmware byte", PLAIN[:256], 12),
    verify("firmware cut by one", PLAIN[:-1], 12),
    verify("size that wraps to 0 with 256", sized(PLAIN, 0xFFFFFF00), 12),
    verify("greatest size", sized(PLAIN, 0xFFFFFFFF), 12),
    verify("12 before 13", sized(image(BAD), 0), 12),
    verify("13 before 14", image(BAD), 13),
    verify("bad tag after the mandatory ones", image(V, T, Y, D, S, BAD), 13),
    verify("image with byte 00 at 253", changed(PLAIN, 253, 0), 13),
    verify("signature passes 256 by one", image(V, T, Y, D, PAD * 119, S), 13),
    verify("no tags", image(), 14),
    verify("mandatory tag after type 0000", image(V, T, Y, D, bytes(4), S), 14),
    verify("type FF01 in place of version", image(changed(V, 1, 0xFF), T, Y, D, S), 14),
    verify("version too short before timestamp missing", image(shorter(V), Y, D, S), 16),
    verify("version repeated before timestamp missing", image(V, V, Y, D, S), 15),
    verify("timestamp missing before signature repeated", image(V, Y, D, S, S), 14),
    verify("timestamp too long before digest repeated", image(V, longer(T), Y, D, D, S), 16),
    verify("signature repeated before firmware type missing", image(V, T, D, S, S), 15),
    verify("digest too short before signature missing", image(V, T, Y, shorter(D)), 16),
    verify("16 before 18", image(V, T, shorter(Y), D, S), 16, signature_ok=0),
    verify("firmware's first byte differs", changed(PLAIN, 256, 0), 17),
    verify("firmware's last byte differs", changed(PLAIN, 263, 0), 17),
    verify("version differs from the digested one", changed(PLAIN, 12, 6), 17),
    verify("digest's first byte differs", changed(PLAIN, 74, PLAIN[74] ^ 1), 17),
    verify("digest's last byte differs", changed(PLAIN, 105, PLAIN[105] ^ 0x80), 17),
    verify("17 before 18", changed(PLAIN, 256, 0), 17, signature_ok=0),
    verify("signature checker says no", PLAIN, 18, signature_ok=0),
]
PASSED = [
    verify("image as the writer lays it out", PLAIN, "PASS"),
    verify("one firmware byte", image(V, T, Y, D, S, firmware=b"\x00"), "PASS"),
    verify("bytes after the firmware", PLAIN + b"after", "PASS"),
    verify("tags in reverse, but the digest last", image(S, H, Y, T, V, D), "PASS"),
    verify("version right before the digest", image(Y, T, V, D, S), "PASS"),
    verify("timestamp right before the digest", image(V, Y, T, D, S), "PASS"),
    verify("signature before what is covered", image(S, V, T, Y, D), "PASS"),
    verify("signature isn't digested", changed(PLAIN, 110, 0), "PASS"),
    verify("hint after the digest", image(V, T, Y, D, H, S), "PASS"),
    verify("custom tag after the digest", image(V, T, Y, D, C, S), "PASS"),
    verify("custom tag after the digest isn't digested", changed(image(V, T, Y, D, C, S), 74, 0), "PASS"),
    verify("types 0100 and 3001 after the digest", image(V, T, Y, D, tag(0x0100, b"a"), tag(0x3001, b"b"), S), "PASS"),
    verify("padding between tags", image(PAD, V, PAD * 3, T, PAD, Y, PAD * 7, D, PAD * 2, S), "PASS"),
    verify("signature ends at 256", image(V, T, Y, D, PAD * 118, S), "PASS"),
    verify("digest ends at 256", image(V, T, Y, S, PAD * 118, D), "PASS"),
    verify("no hint", image(V, T, Y, D, S), "PASS"),
    verify("two hints, one of length 1", image(V, T, H, Y, tag(HINT, b"h"), D, S), "PASS"),
    verify("custom tags before and after the digest", image(C, V, T, Y, C, D, C, S), "PASS"),
    verify("types 0100 and FF34 carried", image(V, tag(0x0100, b"a"), T, tag(0xFF34, b"b"), Y, D, S), "PASS"),
    verify("anything after type 0000", image(V, T, Y, D, S, bytes(4), BAD, V), "PASS"),
]
VERSIONS = [
    version("version 5", PLAIN, "5"),
    version("greatest version", image(tag(VERSION, b"\xff" * 4), T, Y, D, S), "4294967295"),
    version("version's bytes are little-endian", image(tag(VERSION, b"\x01\x02\x03\x04"), T, Y, D, S), "67305985"),
    version("version where the digest differs", changed(PLAIN, 256, 0), "5"),
    version("version after the others, before the digest", image(S, Y, T, V, D), "5"),
    version("version of a short image", PLAIN[:255], "REFUSE 10"),
    version("version where the mark is wrong", changed(PLAIN, 0, 0), "REFUSE 11"),
    version("version of size 0", sized(PLAIN, 0), "REFUSE 12"),
    version("version before a bad tag", image(V, T, Y, D, S, BAD), "REFUSE 13"),
    version("version without a signature tag", image(V, T, Y, D), "REFUSE 14"),
    version("two versions", image(V, T, Y, D, S, V), "REFUSE 15"),
    version("version of 5 bytes", image(longer(V), T, Y, D, S), "REFUSE 16"),
    *[version(f"version where {name} is uncovered", image(*tags), "REFUSE 30") for name, tags in LATE.items()],
]
CASES = BENCH + REFUSED + each_mandatory() + uncovered() + UNCOVERED + PASSED + VERSIONS
