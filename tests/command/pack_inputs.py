"""Inputs for the packing command: what it is given, and what it must print by the reference model."""
import re
from dataclasses import dataclass

from model.header import HINT, MANDATORY
from model.refusals import Refused
from model.writer import digest_to_sign, tag, write

BITS = {"version": 32, "timestamp": 64, "type": 16}
MOST_FIRMWARE = 64 * 4096 - 256
MOST_CUSTOM = 82
NO_NUMBERS = ("", " ", "-1", "+1", "1x", "x1", " 1", "1 ", "1\n", "1.0", "1e3", "0x1", "1_0", "1,0", ":", "/", "٣",
              "9" * 40)


@dataclass(frozen=True)
class Inputs:
    """The numbers are texts; no custom run is a dash, and without a signature the digest is printed."""
    firmware: bytes = b"\x22" * 300
    version: str = "2"
    timestamp: str = "0"
    type: str = "0"
    hint: bytes = bytes(range(32))
    custom: bytes | None = None
    signature: bytes | None = None

    def number(self, name):
        text = getattr(self, name)
        return int(text) if re.fullmatch("[0-9]+", text) and int(text) < 2 ** BITS[name] else None


def expected(inputs):
    """Standard output and standard error. Of several faults the first is said."""
    fields = [inputs.number(name) for name in BITS]
    for name, value in zip(BITS, fields):
        if value is None:
            return b"", f"the {name} is no decimal number below 2^{BITS[name]}\n"
    if len(inputs.firmware) > MOST_FIRMWARE:
        return b"", f"the firmware is longer than {MOST_FIRMWARE} bytes\n"
    if len(inputs.hint) != 32:
        return b"", "the hint is not of 32 bytes\n"
    if inputs.signature is not None and len(inputs.signature) != 64:
        return b"", "the signature is not of 64 bytes\n"
    given = fields, inputs.firmware, inputs.custom or b"", inputs.hint
    try:
        if inputs.signature is None:
            return digest_to_sign(*given).hex().encode() + b"\n", ""
        return write(256, *given, inputs.signature) + inputs.firmware, ""
    except Refused as refused:
        return b"", f"REFUSE {refused}\n"


def custom_runs():
    """Of the most bytes and around it, cut short, with types that may not be there, and with padding."""
    one, lengths = tag(0x31, b""), (MOST_CUSTOM - 1, MOST_CUSTOM, MOST_CUSTOM + 1, 1000)
    return [b"", one * 20, one * 21, *[tag(0x31, bytes(n - 4)) for n in lengths], *[bytes(n) for n in lengths],
            one[:1], one[:3], tag(0x31, b"\x00")[:4], one + b"\xff", tag(0xFF01, b""),
            *[tag(kind, b"") for kind in (*MANDATORY, HINT, 0, 0x01FF)]]


def numbers(bits):
    most = 2 ** bits - 1
    return [*NO_NUMBERS, "0", "7", "007", "0" * 3000 + "7", "8" * 4096,
            *map(str, (most, most + 1, most + 2, 10 * most, 2 ** 64 + 1))]


def edges():
    """Each input at the edges of what is taken, printed and written; and several faults at once."""
    changes = [{}, *[{"firmware": bytes(n)} for n in (0, 1, MOST_FIRMWARE, MOST_FIRMWARE + 1, MOST_FIRMWARE + 9999)],
               *[{name: text} for name, bits in BITS.items() for text in numbers(bits)],
               *[{"hint": bytes(n)} for n in (0, 31, 32, 33, 65)], *[{"custom": run} for run in custom_runs()]]
    long = bytes(MOST_FIRMWARE + 1)
    return [*[Inputs(**change, signature=signature) for change in changes for signature in (None, bytes(range(64)))],
            *[Inputs(signature=bytes(n)) for n in (0, 1, 63, 64, 65, 128)],
            Inputs(version="x", timestamp="x", type="x", firmware=long), Inputs(timestamp="x", type="x", hint=b""),
            Inputs(firmware=long, hint=b""), Inputs(firmware=b"", custom=bytes(83)),
            Inputs(firmware=b"", hint=b"", signature=b""), Inputs(firmware=b"", custom=b"\x31", signature=b"")]


def number(random, bits):
    if random.random() < 0.05:
        return random.choice((*NO_NUMBERS, str(2 ** bits + random.getrandbits(70))))
    return "0" * random.choice((0, 0, 0, 1, 5)) + str(random.getrandbits(random.randint(1, bits)))


def custom_run(random):
    """Mostly of whole tags with types of one's own, and not too long."""
    kinds = [random.choice((0x31, 0x8001, 0x00FE, random.randint(0x40, 0xFFFF))) for _ in range(random.randint(0, 4))]
    run = b"".join(tag(kind, random.randbytes(random.randint(0, 30))) for kind in kinds)
    return random.choice((None, None, run, run, run[:MOST_CUSTOM], random.randbytes(random.randint(0, 90))))


def drawn(random):
    size = random.randint(1, random.choice((1, 64, 3000, 3000, 3000, MOST_FIRMWARE)))
    return Inputs(random.randbytes(size), *[number(random, bits) for bits in BITS.values()], random.randbytes(32),
                  custom_run(random), random.choice((None, random.randbytes(64), random.randbytes(64))))
