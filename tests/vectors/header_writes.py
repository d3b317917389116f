"""Cases of the writer's two calls, and of what it wrote."""
from model.header import DIGEST, FIRMWARE_TYPE, HINT, SIGNATURE, TIMESTAMP, VERSION
from model.writer import tag, write
from tests.vectors.header_case import Case

FIELDS = (5, 1700000000, 0x0201)
FIRMWARE = bytes(range(1, 21))
HINT_BYTES, SIGNATURE_BYTES = bytes(range(32)), bytes(range(100, 164))
NAMES = {VERSION: "version", TIMESTAMP: "timestamp", DIGEST: "digest", HINT: "hint", SIGNATURE: "signature",
         FIRMWARE_TYPE: "firmware type"}
A, B = tag(0x0042, b"abc"), tag(0x1234, b"")
FULL = A + A + tag(0x0055, bytes(range(64)))


def given(name, command, says, custom=b"", firmware=FIRMWARE, fields=FIELDS, buffer_length=256):
    return Case(name, command, firmware, says, custom=custom, fields=fields, buffer_length=buffer_length,
                hint=HINT_BYTES, signature=SIGNATURE_BYTES)


def writes(name, custom, **others):
    """Accepted: the digest to sign and the header, whose bytes only the implementation knows."""
    return [given(f"to sign, {name}", "D", None, custom, **others),
            given(f"write, {name}", "H", None, custom, **others)]


def refuses(name, number, custom, **others):
    untouched = "a5" * others.get("buffer_length", 256)
    return [given(f"to sign, {name}", "D", f"REFUSE {number}", custom, **others),
            given(f"write, {name}", "H", f"{number} {untouched}", custom, **others)]


def buffer(name, length, **others):
    return [given(name, "H", f"10 {'a5' * length}", buffer_length=length, **others)]


def passes(name, custom):
    header = write(256, FIELDS, FIRMWARE, custom, HINT_BYTES, SIGNATURE_BYTES)
    return [Case(f"verdict on {name}", "V", header + FIRMWARE, "PASS", signature_ok=1),
            Case(f"digest tag of {name}", "F", header, f"{74 + len(custom)} 32", kind=DIGEST),
            Case(f"signature tag of {name}", "F", header, f"{110 + len(custom)} 64", kind=SIGNATURE)]


assert len(FULL) == 82
CASES = [
    *writes("no custom tags", b""),
    *writes("one custom tag", A),
    *writes("types repeated, a tag of length 0", A + B + A),
    *writes("types 0100 and FF34", tag(0x0100, b"a") + tag(0xFF34, b"b")),
    *writes("82 custom bytes", FULL),
    *writes("custom tag of 78 bytes", tag(0x0042, b"\xff" * 78)),
    *writes("greatest fields", b"", fields=(0xFFFFFFFF, 0xFFFFFFFFFFFFFFFF, 0xFFFF)),
    *writes("one firmware byte", b"", firmware=b"\xff"),
    *passes("a header without custom tags", b""),
    *passes("a full header", FULL),
    *refuses("no firmware", 12, A, firmware=b""),
    *refuses("83 custom bytes", 26, FULL[:-1] + b"xx"),
    *refuses("83 custom bytes of whole tags", 26, tag(0x0042, bytes(79))),
    *refuses("3 bytes of a tag", 27, A + b"\x42\x00\x00"),
    *refuses("a content cut by one", 27, A + A[:-1]),
    *refuses("a length past the run", 27, b"\x42\x00\xff\xff"),
    *refuses("type 0000", 27, tag(0x0000, b"a")),
    *refuses("type 0000 after a tag", 27, A + bytes(4)),
    *refuses("type 34FF", 27, tag(0x34FF, b"a")),
    *refuses("type FFFF after a tag", 27, A + tag(0xFFFF, b"a")),
    *refuses("padding between tags", 27, A + b"\xff" + A),
    *refuses("padding behind", 27, A + b"\xff"),
    *[case for kind, name in NAMES.items() for case in refuses(f"type of {name}", 27, A + tag(kind, b"a"))[1:]],
    *refuses("12 before 26", 12, bytes(83), firmware=b""),
    *refuses("12 before 27", 12, bytes(4), firmware=b""),
    *refuses("26 before 27", 26, b"\xff" * 83),
    *buffer("buffer of 0", 0),
    *buffer("buffer of 255", 255),
    *buffer("buffer of 257", 257),
    *buffer("10 before 12", 300, firmware=b""),
    *buffer("10 before 26", 255, custom=bytes(83)),
    *buffer("10 before 27", 257, custom=bytes(4)),
]
