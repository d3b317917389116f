"""Images for the program behind ./frondicare verify, and what it must print of them by the reference model."""
from model.header import COVERED, DIGEST, FIRMWARE_TYPE, HINT, SIGNATURE, TIMESTAMP, VERSION, check, verdict, view
from model.refusals import Refused
from model.writer import tag
from tests.vectors.header_verdicts import CASES, D, H, PAD, S, T, V, Y, changed, image, longer, shorter, sized

MOST = 64 * 4096
CUSTOM = 0x0042


def number(data, kind):
    return int.from_bytes(view(data, kind), "little")


def expected(data, signed):
    """Standard output. A header that fails one of the checks 10 to 16 and 30 is not read."""
    refused = verdict(data, signed)
    lines = [f"REFUSE {refused}" if refused else "PASS"]
    try:
        size = check(data)
    except Refused:
        return lines
    lines += [f"version {number(data, VERSION)}", f"timestamp {number(data, TIMESTAMP)}",
              f"type {number(data, FIRMWARE_TYPE)}", f"size {size}"]
    hint = view(data, HINT)
    lines += [f"hint {hint.hex()}"] if len(hint) == 32 else []
    return [*lines, f"digest {view(data, DIGEST).hex()}", f"signature {view(data, SIGNATURE).hex()}"]


def edges():
    """Of few bytes, of the most, and with two hints, of which the first counts."""
    firmware = bytes(MOST - 256)
    return [*[case.body for case in CASES if case.command in "VN"], b"W", bytes(256), bytes(MOST), b"\xff" * MOST,
            image(V, T, Y, H, D, S, firmware=firmware), image(V, T, Y, H, D, S, firmware=firmware[1:]) + b"\x00",
            *[image(V, T, *hints, Y, D, S) for hints in ((tag(HINT, b""),), (longer(H),), (shorter(H),),
                                                         (H, tag(HINT, b"i" * 32)), (tag(HINT, b"h"), H))]]


def damaged(random, tags):
    """One tag too many, too few, too long or too short, or bytes that are no tag."""
    at = random.randrange(len(tags))
    return [*tags[:at], *random.choice(((), (tags[at],) * 2, (longer(tags[at]),), (shorter(tags[at]),),
                                        (random.randbytes(3), tags[at]))), *tags[at + 1:]]


def drawn(random):
    """Tags in any order, mostly with the digest behind what it has to cover, with padding between, and a firmware that
    may be cut or longer than the size says."""
    timestamp = random.getrandbits(random.randint(1, 64)).to_bytes(8, "little")
    hints = random.choice(((), (32,), (random.randint(1, 40),)))
    tags = [tag(VERSION, random.randbytes(4)), tag(TIMESTAMP, timestamp), D, tag(SIGNATURE, random.randbytes(64)),
            tag(FIRMWARE_TYPE, random.randbytes(2)), *[tag(HINT, random.randbytes(length)) for length in hints],
            *[tag(CUSTOM, random.randbytes(random.randint(0, 20))) for _ in range(random.choice((0, 0, 1, 2)))]]
    random.shuffle(tags)
    if random.random() < 0.8:
        tags.remove(D)
        last = max(i for i, each in enumerate(tags) if int.from_bytes(each[:2], "little") in COVERED)
        tags.insert(random.randint(last + 1, len(tags)), D)
    tags = damaged(random, tags) if random.random() < 0.3 else tags
    firmware = random.randbytes(random.randint(1, random.choice((1, 64, 3000, 3000, 30_000))))
    data = image(*[part for each in tags for part in (PAD * random.choice((0, 0, 0, 1, 5)), each)], firmware=firmware)
    return random.choice((
        data, data, data, data + random.randbytes(9), data[:random.randrange(len(data))],
        changed(data, random.randrange(len(data)), random.randrange(256)),
        changed(data, random.randrange(256), random.choice((0x00, 0xFF))), changed(data, random.randrange(4), 0),
        sized(data, random.choice((0, len(firmware) - 1, len(firmware) + 1, random.getrandbits(32))))))
