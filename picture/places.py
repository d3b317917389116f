"""Which sector, trailer or flag a place of the flash belongs to, and which of them a step reads and writes."""
from model.flash import BOOT, UPDATE
from model.slots import state_at

# The third area; and UPDATE's flags, which lie in its trailer and are drawn by themselves.
SWAP, FLAG = 2, 3


def sector_of(g, at):
    """The area of a place and the number of its sector there; a slot's trailer is sector n."""
    [found] = [(area, (at - places.start) // g.z) for area, places in enumerate(g.areas()) if at in places]
    return found


def flag_written(g, at, value):
    """The sector and the flag that a byte of two flags is for: the later one where it isn't new."""
    i, low, high = 2 * (state_at(g, UPDATE) - 1 - at), value & 0xF, value >> 4
    return (i, low) if i + 1 == g.n or high == 0xF else (i + 1, high)


def target(g, step):
    """The places that a step writes."""
    letter, at, *other = step
    start = other[0] if letter == "C" else at
    return slice(start, start + {"E": g.z, "C": g.z, "B": 1, "M": 4}[letter])


def cell_written(g, step):
    """The area and the sector that a step writes, or FLAG and the flag's sector."""
    if step[0] == "B" and step[1] not in (state_at(g, BOOT), state_at(g, UPDATE)):
        return FLAG, flag_written(g, *step[1:])[0]
    return sector_of(g, target(g, step).start)


def cell_read(g, step):
    """The area and the sector that a copy reads; None of another step."""
    return sector_of(g, step[1]) if step[0] == "C" else None
