"""The two images of a board, which the picture follows: the slots' images, in mid-swap those before that swap."""
from typing import NamedTuple

from model.flash import BOOT, UPDATE
from model.header import verdict, version_or_none
from model.refusals import Refused, in_words
from model.slots import UPDATING, progress, sound_with
from picture.places import SWAP
from picture.words import NAMES


class Image(NamedTuple):
    """Its name in a drawing, a name of one character, what it is, where it came from, and its sectors."""
    name: str
    mark: str
    text: str
    origin: str
    sectors: list


def area_sectors(g, flash, area):
    """A slot's sectors without the trailer, or SWAP's only one."""
    start, count = g.areas()[area].start, 1 if area == SWAP else g.n
    return [flash[at:at + g.z] for at in range(start, start + count * g.z, g.z)]


def swap_progress(g, flash):
    """0 where no swap has begun, or the flags say none."""
    try:
        return progress(g, flash) if sound_with(g, flash, UPDATE, UPDATING) else 0
    except Refused:
        return 0


def before_swap(g, flash):
    """The sectors of BOOT's image and of UPDATE's. A flag says where those of its sector lie."""
    boot, update = area_sectors(g, flash, BOOT), area_sectors(g, flash, UPDATE)
    i, stage = divmod(swap_progress(g, flash), 3)
    from_boot, from_update = update[:i] + boot[i:], boot[:i] + update[i:]
    if stage > 0:
        [from_update[i]] = area_sectors(g, flash, SWAP)
    if stage == 2:
        from_boot[i] = update[i]
    return from_boot, from_update


def image(slot, sectors, other, origin):
    """Named by its version where that is short and not the other's too. The signature is left aside."""
    number, letter, refused = version_or_none(b"".join(sectors)), "AB"[slot], verdict(b"".join(sectors), True)
    telling = number is not None and number != version_or_none(b"".join(other))
    name = f"v{number}" if telling and number < 1000 else letter
    mark = str(number) if telling and number < 10 else letter
    text = f"{'bytes' if number is None else f'version {number}'} from {origin}"
    return Image(name, mark, text if refused == 0 else f"{text}, {in_words(refused)}", origin, sectors)


def images_of(g, flash):
    boot, update = before_swap(g, flash)
    when = " before the swap" if swap_progress(g, flash) > 0 else ""
    return image(BOOT, boot, update, f"{NAMES[BOOT]}{when}"), image(UPDATE, update, boot, f"{NAMES[UPDATE]}{when}")
