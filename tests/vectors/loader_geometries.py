"""Cases of refused geometries: their numbers come first, whatever the flash holds, and nothing is carried out."""
from dataclasses import replace

from tests.vectors.loader_case import B10, U70, Case, G, filled, flag_byte
from tests.vectors.loader_images import ONE, TWO

CALLS = {"N": "next step", "T": "trigger", "C": "confirm"}


def refused(name, number, flash=None, **numbers):
    return [Case(f"{name}, {call}", letter, f"REFUSE {number}", flash if letter == "N" else None,
                 geometry=replace(G, **numbers)) for letter, call in CALLS.items()]


# A step is due, and BOOT is on trial.
DUE = [
    *refused("z 0, n 0", 1, filled(TWO, ONE, B10, U70), z=0, n=0),
    *refused("n 65", 2, n=65),
    *refused("SWAP at 2^32 - 256", 3, swap=2 ** 32 - 256),
    *refused("SWAP at UPDATE's trailer", 4, swap=1280),
    Case("geometry refused before, next step", "n", "C 768 1536"),
    Case("geometry refused before, trigger", "t", "REFUSE 21"),
    Case("geometry refused before, confirm", "c", "B 763 0"),
]
ILL_FORMED = refused("flags ill-formed, BOOT at UPDATE", 4, filled(ONE, TWO, U70, flag_byte("3F")), boot=768)
SHORT = refused("flash 1791", 3, filled(ONE, TWO, U70)[:1791], length=1791)
CASES = DUE + ILL_FORMED + SHORT
