"""Images that the cases lay into the slots."""
from model.writer import tag, write
from tests.vectors.header_verdicts import BAD, LATE, PAD, PLAIN, C, D, S, T, V, Y, changed, image, shorter, sized


def written(version, firmware=b"\x11" * 256):
    """An image as the writer lays it out."""
    return write(256, (version, 0, 0), firmware, b"", b"h" * 32, b"s" * 64) + firmware


# Those of document 01's example.
ONE, TWO = written(1), written(2, b"\x22" * 256)
# By the verdict's number. The version is 5, and a lookup finds it in each of them.
BROKEN = {
    11: changed(PLAIN, 0, 0),
    12: sized(PLAIN, 257),
    13: image(V, T, Y, D, S, BAD),
    14: image(V, Y, D, S),
    15: image(V, T, Y, D, S, V),
    16: image(V, T, shorter(Y), D, S),
    17: changed(PLAIN, 263, 0),
    30: image(*LATE["version"]),
}
# The other two types that the digest has to cover, behind it.
LATE_TYPES = {name: image(*LATE[name]) for name in ("timestamp", "firmware type")}
# What else may stand behind the digest, and be wrong beside an uncovered version.
CUSTOM_BEHIND = image(V, T, Y, D, C, S)
UNCOVERED_TOO = {
    "padding between": image(T, Y, PAD * 2, D, PAD * 9, V, S),
    "digest repeated": image(T, Y, D, V, D, S),
    "digest differs": changed(image(*LATE["version"]), 263, 0),
}
# Padding before the version, and a type whose high byte is FF.
PADDED = image(PAD, tag(0xFF34, b"b"), PAD * 3, V, PAD, T, Y, PAD * 2, D, S)
