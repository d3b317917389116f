"""Document 01's header, written: the digest to sign, and the 256 bytes."""
import hashlib
import struct

from model.header import DIGEST, FIRMWARE_TYPE, HINT, MANDATORY, MARK, SIGNATURE, TIMESTAMP, VERSION
from model.refusals import refuse


def tag(kind, content):
    return struct.pack("<HH", kind, len(content)) + content


def whole_tags(run):
    """The types in a run of tags without padding; None where the last tag is cut."""
    kinds = []
    while run:
        if len(run) < 4 or len(run) < 4 + int.from_bytes(run[2:4], "little"):
            return None
        kinds.append(int.from_bytes(run[:2], "little"))
        run = run[4 + int.from_bytes(run[2:4], "little"):]
    return kinds


def unsigned(fields, firmware, custom, hint):
    """Numbers 12, 26, 27. Gives the header up to its digest tag."""
    refuse(not 1 <= len(firmware) <= 4294967039, 12)
    refuse(len(custom) > 82, 26)
    kinds = whole_tags(custom)
    refuse(kinds is None, 27)
    refuse(any(k == 0 or k % 256 == 0xFF or k == HINT or k in MANDATORY for k in kinds), 27)
    number, timestamp, firmware_type = fields
    return (MARK + struct.pack("<I", len(firmware)) + tag(VERSION, struct.pack("<I", number))
            + tag(TIMESTAMP, struct.pack("<Q", timestamp)) + tag(FIRMWARE_TYPE, struct.pack("<H", firmware_type))
            + custom + tag(HINT, hint))


def digest_to_sign(fields, firmware, custom, hint):
    return hashlib.sha256(unsigned(fields, firmware, custom, hint) + firmware).digest()


def write(buffer_length, fields, firmware, custom, hint, signature):
    refuse(buffer_length != 256, 10)
    front = unsigned(fields, firmware, custom, hint)
    digest = digest_to_sign(fields, firmware, custom, hint)
    return (front + tag(DIGEST, digest) + tag(SIGNATURE, signature)).ljust(256, b"\xff")
