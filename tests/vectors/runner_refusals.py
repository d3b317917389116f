"""Cases of refusals before the first step: the geometry's, then 29, then 28. They change neither flash nor record."""
from dataclasses import replace

from tests.vectors.loader_case import NEITHER, U70, G, filled, flag_byte
from tests.vectors.loader_images import BROKEN, ONE, TWO
from tests.vectors.runner_case import NONE, STAGED, UPDATED, UPDATING, Case, ended

MOST = 4_294_963_199
FULL, OVER = (MOST,) * 4, (MOST + 1,) * 4
GEOMETRIES = [
    ("z 0, n 0", 1, {"z": 0, "n": 0}),
    ("n 65", 2, {"n": 65}),
    ("SWAP at 2^32 - 256", 3, {"swap": 2 ** 32 - 256}),
    ("SWAP at UPDATE's trailer", 4, {"swap": 1280}),
]
# The first one, and others with few low bits.
NUMBERS = (4097, 4098, 8192, 65_536, 65_537, 2 ** 24 + 4096, 2 ** 31, 2 ** 32 - 1)


def refused(name, why, flash=None, **others):
    return Case(name, f"REFUSE {why}", [], flash, **others)


def one(i, count):
    """A record with one counter that isn't 0."""
    return NONE[:i] + (count,) + NONE[i + 1:]


def geometry(name, why, changes):
    where = replace(G, **changes)
    return [refused(name, why, STAGED, geometry=where),
            refused(f"{name}, number 4097", why, number=4097, geometry=where),
            refused(f"{name}, no room", why, counts=OVER, geometry=where),
            refused(f"{name}, number 4097, no room", why, number=4097, counts=OVER, geometry=where)]


FIRST = [
    *[case for fault in GEOMETRIES for case in geometry(*fault)],
    refused("flash 1791", 3, STAGED[:1791], number=4097, counts=OVER, geometry=replace(G, length=1791)),
]
LARGE = [
    *[refused(f"number {number}", 29, None if i else STAGED, number=number) for i, number in enumerate(NUMBERS)],
    refused("number 4097, no room", 29, number=4097, counts=OVER),
    refused("number 4097, one counter with no room", 29, number=4097, counts=one(2, MOST + 1)),
]
NO_ROOM = [
    *[refused(f"counter {i} at {count}", 28, counts=one(i, count))
      for i in range(4) for count in (MOST + 1, 2 ** 32 - 1)],
    refused("no counter with room", 28, counts=OVER),
    refused("counter 0 with no room, number 0", 28, number=0, counts=one(0, MOST + 1)),
    refused("counter 3 with no room, number 1", 28, number=1, counts=one(3, MOST + 1)),
    Case("refused before, number 0", "C 768 1536", [], number=0, counts=FULL),
]
# Within a run a counter may pass the limit. Then there is no room for another run.
AT_THE_LIMIT = [
    *[ended(f"counter {i} at the limit", UPDATING, "BOOT 0", STAGED, counts=one(i, MOST), leaves=UPDATED)
      for i in range(4)],
    ended("all counters at the limit", UPDATING, "BOOT 0", STAGED, counts=FULL, leaves=UPDATED),
    refused("past the limit", 28, counts=(MOST + 5, MOST + 6, MOST + 8, MOST + 1)),
    refused("past the limit, number 0", 28, number=0, counts=(MOST, MOST, MOST, MOST + 1)),
]
# Before what the decisions give.
DECIDED = [
    refused("29 before a boot", 29, filled(ONE, TWO), number=4097),
    refused("28 before a boot", 28, counts=one(1, MOST + 1)),
    refused("29 before 20", 29, filled(ONE, TWO, U70, flag_byte("3F")), number=4097),
    refused("28 before 20", 28, counts=one(0, MOST + 1)),
    refused("29 before 11", 29, filled(BROKEN[11], TWO), number=4097, answers=NEITHER),
    refused("28 before 11", 28, counts=one(3, MOST + 1), answers=NEITHER),
]
CASES = FIRST + LARGE + NO_ROOM + AT_THE_LIMIT + DECIDED
