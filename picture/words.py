"""Plain words for a board's places, trailers, flags, steps and refusals."""
from itertools import groupby

from model.flash import BOOT, UPDATE
from model.refusals import in_words
from model.slots import BACKUP, NEW, SPENT, SUCCESS, SWAPPING, TESTING, UPDATED, UPDATING, state_at
from picture.places import SWAP, flag_written, sector_of

NAMES = "BOOT", "UPDATE", "SWAP"
# Up to so many sectors are told one by one, and drawn with room between them.
FEW = 4
STATES = {0xFF: "new", UPDATING: "updating", TESTING: "on trial", SUCCESS: "confirmed", SPENT: "spent"}
MEANS = {TESTING: "exchanged back unless confirmed", SUCCESS: "it stays", SPENT: "its swap is over"}
FLAGS = {NEW: "new", SWAPPING: "swapping", BACKUP: "backup", UPDATED: "updated"}
SAFE = {SWAPPING: "UPDATE's is in SWAP", BACKUP: "BOOT's is in UPDATE", UPDATED: "UPDATE's is in BOOT"}


def refusal_text(number):
    """Of a board. The verdict that a loader ends with is BOOT's."""
    slot = "BOOT: " if 11 <= number <= 18 or number == 30 else "UPDATE: " if number == 20 else ""
    return f"refused: {slot}{in_words(number)}"


def state_text(state):
    return f"{state:02X} {STATES.get(state, 'unknown')}"


def sector_text(g, area, i):
    if area == SWAP:
        return NAMES[area]
    return f"{NAMES[area]}'s trailer" if i == g.n else f"{NAMES[area]} sector {i}"


def place_text(g, at):
    return sector_text(g, *sector_of(g, at))


def byte_text(g, at, value):
    """A state, or a flag and what it says."""
    for slot in BOOT, UPDATE:
        if at == state_at(g, slot):
            return f"{NAMES[slot]}'s state: {STATES[value]}"
    i, flag = flag_written(g, at, value)
    return f"flag of sector {i}: {FLAGS[flag]}, {SAFE[flag]}"


def flags_text(flags):
    """How many there are in a row, from sector 0's on."""
    runs = [(len(list(run)), f"{flag:X}") for flag, run in groupby(flags)]
    return " ".join(f"{count}x{flag}" if count > 1 else flag for count, flag in runs)


def step_text(g, letter, at, other=None):
    if letter == "E":
        return f"erase {place_text(g, at)}"
    if letter == "C":
        return f"copy {place_text(g, at)} to {place_text(g, other)}"
    return byte_text(g, at, other) if letter == "B" else f"close {place_text(g, at)}"
