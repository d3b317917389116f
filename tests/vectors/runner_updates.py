"""Cases of whole updates and returns: document 01's example cut short at every number, in pieces, and others."""
from model.flash import BOOT, Geometry
from tests.vectors.flash_case import MOST, THREE, TURNED
from tests.vectors.flash_flags import FOUR, LARGEST, flag_bytes
from tests.vectors.loader_case import B10, U30, U70, filled, sound, state
from tests.vectors.loader_images import ONE, TWO, written
from tests.vectors.loader_stories import Z4096, Z512, by_sector, triggered
from tests.vectors.runner_case import (LAST, NONE, RENEWED, RETURNED, RETURNING, STAGED, SWAPPED, UPDATED, UPDATING,
                                       Case, ended, exchanged, in_pieces, stopped)

Z1024 = Geometry(z=1024, n=2, boot=4096, update=1024, swap=0, length=7177)
# SWAP and BOOT's trailer have to be erased.
NOISE = filled(ONE, TWO, U70, sound(BOOT, "00"), (1536, bytes(range(256))))
WITH_NOISE = ["E 1536", *SWAPPED, "E 512", *RENEWED, *LAST]
EXAMPLE = [
    *[stopped("example", UPDATING, "BOOT 0", number, STAGED) for number in range(20)],
    *[stopped("example", UPDATING, "BOOT 0", number, STAGED, leaves=UPDATED) for number in (20, 21, 22, 4095, 4096)],
    *in_pieces("example", UPDATING, "BOOT 0", 1, NONE, STAGED),
    *in_pieces("example", UPDATING, "BOOT 0", 7, (1, 20, 300, 4_294_963_199), STAGED),
    *[stopped("SWAP and BOOT's trailer to be erased", WITH_NOISE, "BOOT 0", number, NOISE)
      for number in (0, 1, 7, 18, 20, 21, 22, 4096)],
]
# Each ends on trial, so the next one goes back.
RETURNS = [
    *[stopped("return", RETURNING, "BOOT 0", number, UPDATED) for number in (0, 1, 2, 3, 4, 7, 20, 21)],
    *[stopped("return", RETURNING, "BOOT 0", number, UPDATED, leaves=RETURNED) for number in (22, 4096)],
    *in_pieces("return", RETURNING, "BOOT 0", 7, NONE, UPDATED),
    ended("return from the return", RETURNING, "BOOT 0", leaves=UPDATED),
    ended("and back", RETURNING, "BOOT 0", leaves=RETURNED),
    ended("return, UPDATE's trailer all FF", RETURNING[1:3] + SWAPPED + LAST, "BOOT 0", filled(TWO, ONE, B10),
          leaves=RETURNED),
    ended("return, UPDATE's state alone", RETURNING[2:3] + SWAPPED + LAST, "BOOT 0",
          filled(TWO, ONE, B10, state(1, "70")), leaves=RETURNED),
    ended("return triggered", SWAPPED + LAST, "BOOT 0", filled(TWO, ONE, B10, U70), leaves=RETURNED),
    ended("return to a greater version", SWAPPED + LAST, "BOOT 0", filled(ONE, TWO, B10, U70), leaves=UPDATED),
    ended("confirmed, no return", [], "BOOT 0", filled(TWO, ONE, sound(BOOT, "00"), U30)),
]


def whole(name, geometry, old, new):
    """No sector is blank, and no two are the same: 9n + 2 steps from a flash of FF, and a return of 9n + 4."""
    n = geometry.n
    return [
        Case(name, "BOOT 0", (3 * n - 1, 3 * n, 3 * n + 2, 1), triggered(geometry, old, new), geometry=geometry,
             leaves=exchanged(new, old, geometry)),
        Case(f"{name}, return", "BOOT 0", (3 * n + 1, 3 * n, 3 * n + 2, 1), geometry=geometry,
             leaves=exchanged(old, new, geometry)),
    ]


def two(n):
    """Images of n sectors."""
    return by_sector(1, *range(1, n)), by_sector(2, *range(101, 100 + n))


GEOMETRIES = [
    *whole("areas turned", TURNED, ONE, TWO),
    *whole("n 3", THREE, *two(3)),
    *whole("n 4", FOUR, *two(4)),
    *whole("n 14", MOST, *two(14)),
    *whole("n 64", LARGEST, *two(64)),
    *whole("z 512, n 1", Z512, ONE, TWO),
    *whole("z 1024, n 2", Z1024, written(1, b"\x11" * 1000), written(2, b"\x22" * 1792)),
    *whole("z 4096, n 1", Z4096, ONE, TWO),
]
# The last high half, 5, isn't read, and it is kept: it is no flag that could become 0.
SPARE = ["C 1536 2048", "B 2041 87", "E 1536", "C 512 1536", "B 2041 83", "E 512", "C 2048 512", "B 2041 80",
         "B 1019 16", "M 1020", "LAST B 2043 48"]
OLD_3, NEW_3 = two(3)
THREE_SECTORS = [
    stopped("n 3, last sector", SPARE, "BOOT 0", number,
            triggered(THREE, NEW_3[:512] + OLD_3[512:], OLD_3[:512] + NEW_3[512:], flag_bytes(THREE, "5F 00")),
            geometry=THREE, answers=2)
    for number in (0, 1, 7, 8, 10, 11, 4096)
]
BLANK = written(2, b"\xff" * 256)
# A second sector that is the same in both images, or all FF.
SAME = [
    ended("same second sector", SWAPPED[:11] + ["B 1530 48", "B 1530 0", *RENEWED, *LAST], "BOOT 0",
          filled(ONE, written(3), U70), leaves=exchanged(written(3), ONE)),
    ended("UPDATE's second sector all FF",
          SWAPPED[:9] + ["B 1530 112", "C 256 1024", "B 1530 48", "E 256", "B 1530 0", *RENEWED, *LAST], "BOOT 0",
          filled(ONE, BLANK, U70), leaves=exchanged(BLANK, ONE)),
    ended("BOOT's second sector all FF",
          SWAPPED[:12] + ["B 1530 48", "C 1536 256", "B 1530 0", *RENEWED, *LAST], "BOOT 0",
          filled(BLANK, written(3), U70), leaves=exchanged(written(3), BLANK)),
    ended("both second sectors all FF",
          SWAPPED[:9] + ["B 1530 112", "B 1530 48", "B 1530 0", *RENEWED, *LAST], "BOOT 0",
          filled(BLANK, written(3, b"\xff" * 256), U70), leaves=exchanged(written(3, b"\xff" * 256), BLANK)),
]
CASES = EXAMPLE + RETURNS + GEOMETRIES + THREE_SECTORS + SAME
