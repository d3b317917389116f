"""One case of runner_cases: a run, and the answer, steps and flash that a reader of document 01 can write down."""
from dataclasses import dataclass

from model.flash import BOOT, UPDATE, Geometry
from model.runner import LETTERS, MOST_STEPS
from model.simulator import step_text
from tests.vectors.flash_flags import flag_bytes
from tests.vectors.loader_case import BOTH, U70, G, filled, sound
from tests.vectors.loader_images import ONE, TWO
from tests.vectors.loader_stories import EXCHANGE

NONE = (0, 0, 0, 0)


def exchanged(boot, update, geometry=G):
    """A flash that an exchange leaves, from one of FF: SWAP holds BOOT's last sector."""
    last = boot.ljust(geometry.n * geometry.z, b"\xff")[-geometry.z:]
    flags = flag_bytes(geometry, "F" * (geometry.n % 2) + "0" * geometry.n)
    return filled(boot, update, sound(BOOT, "10", geometry), sound(UPDATE, "30", geometry), flags,
                  (geometry.swap, last), geometry=geometry)


# Document 01's example, the flash that it leaves, and what the return after it leaves.
STAGED, UPDATED, RETURNED = filled(ONE, TWO, U70), exchanged(TWO, ONE), exchanged(ONE, TWO)
# From a SWAP of FF 17 steps exchange the sectors. BOOT's trailer is renewed from FF, and a return finds it renewed.
SWAPPED = EXCHANGE.split("; ")
RENEWED = ["B 763 16", "M 764"]
LAST, NOT_LAST = ["LAST B 1531 48"], ["B 1531 48"]
UPDATING = [*SWAPPED, *RENEWED, *LAST]
# After an update, when SWAP holds other bytes.
RETURNING = ["E 1280", "B 1531 112", "M 1532", "E 1536", *SWAPPED, *LAST]


@dataclass
class Case:
    name: str
    says: str
    # The steps in order, as the simulator prints them; where they are too many, how many of each kind.
    does: list | tuple
    # None: as the case before left it.
    flash: bytes = None
    answers: int = BOTH
    number: int = MOST_STEPS
    counts: tuple = NONE
    geometry: Geometry = G
    # None: not written down. Without steps the flash is left as it is.
    leaves: bytes = None


def done(steps):
    """Steps that may have been answered as a last one, carried out."""
    return [step.removeprefix("LAST ") for step in steps]


def kinds(does):
    """How many of each kind."""
    return does if isinstance(does, tuple) else tuple(sum(step[0] == letter for step in does) for letter in LETTERS)


def agrees(does, steps):
    """Whether the steps of a case are these."""
    texts = [step_text(step) for step in steps]
    return kinds(texts) == does if isinstance(does, tuple) else texts == does


def ended(name, steps, end, flash=None, **others):
    """A run with all the steps that there are."""
    return Case(name, end, done(steps), flash, **others)


def stopped(name, steps, end, number, flash=None, **others):
    """A run with this number: it answers the step due, or the end where no step is left."""
    says = steps[number] if number < len(steps) else end
    return Case(f"{name}, number {number}", says, done(steps[:number]), flash, number=number, **others)


def in_pieces(name, steps, end, number, counts, flash, **others):
    """Runs with the same number one after the other, which count on in one record."""
    cases = []
    for start in range(0, len(steps), number):
        case = stopped(f"{name}, from {start}", steps[start:], end, number, None if cases else flash, counts=counts,
                       **others)
        counts = tuple(a + b for a, b in zip(counts, kinds(case.does)))
        cases.append(case)
    return cases
