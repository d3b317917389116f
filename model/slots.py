"""Document 01's trailers and sector flags, and a slot's image."""
from itertools import takewhile

from model.flash import BOOT, CLOSING, UPDATE, check
from model.refusals import Refused, refuse

UPDATING, TESTING, SUCCESS, SPENT = 0x70, 0x10, 0x00, 0x30
NEW, SWAPPING, BACKUP, UPDATED = 0xF, 0x7, 0x3, 0x0
NEXT_FLAG = (SWAPPING, BACKUP, UPDATED)


def state_at(geometry, slot):
    """The place of a trailer's state."""
    return geometry.trailer(slot).stop - 5


def state_byte(geometry, slot, state):
    """The Byte that writes it."""
    return "B", state_at(geometry, slot), state


def sound_with(geometry, flash, slot, state):
    try:
        check(geometry)
    except Refused:
        return False
    return flash[state_at(geometry, slot):geometry.trailer(slot).stop] == bytes([state]) + CLOSING


def flag_at(geometry, i):
    """The place of the byte that holds sector i's flag."""
    return geometry.trailer(UPDATE).stop - 6 - i // 2


def flags(geometry, flash):
    return [flash[flag_at(geometry, i)] >> 4 * (i % 2) & 0xF for i in range(geometry.n)]


def renewal(geometry, flash, slot, state):
    """The next step that renews a trailer; None where it is finished."""
    check(geometry)
    if sound_with(geometry, flash, slot, state) and (slot == BOOT or set(flags(geometry, flash)) == {NEW}):
        return None
    trailer = geometry.trailer(slot)
    sector = flash[trailer.start:trailer.stop]
    if sector == b"\xff" * geometry.z:
        return state_byte(geometry, slot, state)
    if sector == b"\xff" * (geometry.z - 5) + bytes([state]) + b"\xff" * 4:
        return "M", trailer.stop - 4
    return "E", trailer.start


def updated_sectors(geometry, flash):
    """How many there are, from the first one on."""
    return len(list(takewhile(lambda flag: flag == UPDATED, flags(geometry, flash))))


def progress(geometry, flash):
    check(geometry)
    updated = updated_sectors(geometry, flash)
    if updated == geometry.n:
        return 3 * geometry.n
    first, *others = flags(geometry, flash)[updated:]
    refuse(first not in (NEW, SWAPPING, BACKUP) or any(flag != NEW for flag in others), 20)
    return 3 * updated + (NEW, SWAPPING, BACKUP).index(first)


def flag_step(geometry, flash, number):
    """The Byte that takes the flags from a progress number to the next; None where there is no next."""
    check(geometry)
    if number >= 3 * geometry.n:
        return None
    i, turn = divmod(number, 3)
    at = flag_at(geometry, i)
    low, high = flash[at] % 16, flash[at] // 16
    low, high = (low, NEXT_FLAG[turn]) if i % 2 else (NEXT_FLAG[turn], high)
    return "B", at, 16 * high + low


def image(geometry, flash, slot):
    """What a slot's verdict is given; empty where the geometry is refused."""
    try:
        check(geometry)
    except Refused:
        return b""
    return flash[geometry.areas()[slot].start:geometry.trailer(slot).start]
