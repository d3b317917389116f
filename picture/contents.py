"""What the sectors, trailers and flags of a flash hold, by comparing them with the two images."""
from typing import NamedTuple

from model.flash import BOOT, CLOSING, UPDATE
from model.slots import flags, updated_sectors
from picture.images import area_sectors
from picture.places import SWAP
from picture.words import state_text

# Kinds of content: of the image from BOOT, of that from UPDATE, the same in both, all FF, none of these.
FROM_BOOT, FROM_UPDATE, SAME, BLANK, OTHER = "boot", "update", "same", "blank", "other"


class Content(NamedTuple):
    """Of a sector: its kind; the number of the image's sector; the kinds of its halves where it is OTHER and they
    are not."""
    kind: str
    sector: int
    halves: tuple = ()


class Trailer(NamedTuple):
    blank: bool
    sound: bool
    state: int

    def text(self):
        if self.blank:
            return "blank"
        return state_text(self.state) if self.sound else f"{self.state:02X}, not closed"


class Contents(NamedTuple):
    """The sectors and the trailer of BOOT and of UPDATE, UPDATE's flags, and SWAP."""
    slots: tuple
    trailers: tuple
    flags: list
    swap: Content


def kind_of(data, boot, update):
    if data == b"\xff" * len(data):
        return BLANK
    same = [kind for kind, known in ((FROM_BOOT, boot), (FROM_UPDATE, update)) if data == known]
    return SAME if len(same) == 2 else same[0] if same else OTHER


def content_of(data, images, i):
    """Compared with sector i of each image."""
    boot, update = (image.sectors[i] for image in images)
    whole, half = kind_of(data, boot, update), len(data) // 2
    if whole != OTHER:
        return Content(whole, i)
    halves = tuple(kind_of(data[part], boot[part], update[part]) for part in (slice(half), slice(half, None)))
    return Content(OTHER, i, () if set(halves) == {OTHER} else halves)


def swap_content(g, flash, images):
    """SWAP may hold any sector: the one that the flags have come to is tried first, then those near it."""
    [data] = area_sectors(g, flash, SWAP)
    current = updated_sectors(g, flash)
    found = []
    for i in sorted(range(g.n), key=lambda i: (abs(i - current), i)):
        found.append(content_of(data, images, i))
        if found[-1].kind != OTHER:
            return found[-1]
    return min(found, key=lambda content: not {FROM_BOOT, FROM_UPDATE, SAME} & set(content.halves))


def trailer_of(g, flash, slot):
    places = g.trailer(slot)
    data = flash[places.start:places.stop]
    return Trailer(data == b"\xff" * g.z, data[-4:] == CLOSING, data[-5])


def contents_of(g, flash, images):
    slots = tuple([content_of(data, images, i) for i, data in enumerate(area_sectors(g, flash, slot))]
                  for slot in (BOOT, UPDATE))
    return Contents(slots, tuple(trailer_of(g, flash, slot) for slot in (BOOT, UPDATE)), flags(g, flash),
                    swap_content(g, flash, images))


def kind_text(kind, images):
    names = [image.name for image in images]
    return {FROM_BOOT: names[0], FROM_UPDATE: names[1], SAME: " and ".join(names), BLANK: "blank",
            OTHER: "other bytes"}[kind]


def content_text(content, images, numbered=False):
    """Numbered: with the number of the image's sector, where the place doesn't tell it."""
    kinds = content.halves or (content.kind,)
    texts = [f"sector {content.sector} of {kind_text(kind, images)}" if numbered and kind not in (BLANK, OTHER)
             else kind_text(kind, images) for kind in kinds]
    return texts[0] if len(texts) == 1 else f"first half {texts[0]}, second half {texts[1]}"
