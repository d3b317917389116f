"""One case of loader_cases: what is asked, and the answer that a reader of document 01 can write down."""
from dataclasses import dataclass

from model.flash import BOOT, CLOSING, UPDATE, Geometry
from tests.vectors.flash_case import G, laid_over
from tests.vectors.flash_flags import flag_bytes

# The checker's answers: the slots whose signature it accepts.
NEITHER, BOOT_ONLY, UPDATE_ONLY, BOTH = range(4)


@dataclass
class Case:
    """n, t, c ask for the next step, trigger, confirm; N, T, C carry the step out as well."""
    name: str
    letter: str
    says: str
    # None: as the case before left it.
    flash: bytes = None
    answers: int = BOTH
    geometry: Geometry = G


def filled(boot, update, *patches, geometry=G):
    """A flash of FF with two images and other bytes laid over it."""
    return laid_over(b"\xff" * geometry.length, ((geometry.boot, boot), (geometry.update, update), *patches))


def state(slot, text, geometry=G):
    """A trailer's last five bytes, or the first of them."""
    return geometry.trailer(slot).stop - 5, bytes.fromhex(text)


def sound(slot, text, geometry=G):
    return state(slot, f"{text} {CLOSING.hex()}", geometry)


def flag_byte(text):
    """G's two flags."""
    return flag_bytes(G, text)


def story(name, letter, says, flash=None, answers=BOTH, geometry=G):
    """Answers one after the other, with ; between them as in document 01."""
    return [Case(f"{name}, {i}", letter, text, None if i > 1 else flash, answers, geometry)
            for i, text in enumerate(says.split("; "), 1)]


# On trial; triggered; spent.
B10, U70, U30 = sound(BOOT, "10"), sound(UPDATE, "70"), sound(UPDATE, "30")
