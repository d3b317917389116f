"""What a header holds, in words: the names of document 01's types, and their contents."""
from datetime import datetime, timezone

from model.header import DIGEST, FIRMWARE_TYPE, HINT, MANDATORY, SIGNATURE, TIMESTAMP, VERSION

NAMES = {VERSION: "version", TIMESTAMP: "timestamp", DIGEST: "digest", HINT: "key hint", SIGNATURE: "signature",
         FIRMWARE_TYPE: "firmware type"}
NUMBERS = VERSION, TIMESTAMP, FIRMWARE_TYPE
LENGTHS = {**MANDATORY, HINT: 32}
# From 2000 to 2100.
DATES = range(946684800, 4102444800)


def dated(stamp):
    """A timestamp, with its date where that is likely to be one."""
    date = f" ({datetime.fromtimestamp(stamp, timezone.utc):%Y-%m-%d %H:%M:%S} UTC)" if stamp in DATES else ""
    return f"{stamp}{date}"


def in_hex(content):
    return content.hex() or "empty"


def content_text(kind, content):
    """A number of its right length in decimal, all else in hexadecimal digits, two for each byte in their order."""
    if LENGTHS.get(kind, len(content)) != len(content):
        return f"{in_hex(content)} (not of {LENGTHS[kind]} bytes)"
    if kind not in NUMBERS:
        return in_hex(content)
    number = int.from_bytes(content, "little")
    return dated(number) if kind == TIMESTAMP else str(number)
