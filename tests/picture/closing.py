"""Whether what a picture says in the end is so."""
import re

from model import header
from model.flash import BOOT, UPDATE
from model.refusals import Refused
from model.slots import image
from tests.picture.rows import SLOTS, mends

SLOT = re.compile(r"(BOOT|UPDATE): (version (\d+), whole|does not pass, .*); (.*)")
STEPS = re.compile(r"(no step is due|(\d+) steps? begun), (no power loss|(\d+) power loss(?:es)?, (mended|\d+ mended))")


def check_slot(expected, slot, line, images, when):
    """images: of BOOT and of UPDATE before the swap that the board was in, None where they are not known; when: the
    words for that."""
    g, held = expected.geometry, image(expected.geometry, expected.rows[-1].flash, slot)
    name, text, version, origin = SLOT.fullmatch(line).groups()
    assert name == SLOTS[slot], line
    try:
        header.verify(held, expected.end.answers >> slot & 1)
        assert int(version) == header.version(held), line
    except Refused:
        assert version is None, line
    if images is not None:
        origins = [SLOTS[i] for i in (BOOT, UPDATE) if images[i].ljust(g.n * g.z, b"\xff") == held]
        came = "either" if len(origins) == 2 else f"{''.join(origins)}{when}"
        assert origin == (f"every byte from {came}" if origins else "other bytes than found"), line


def check_steps(expected, line):
    cuts, mended = sum(row.cut for row in expected.rows), [m for m in mends(expected.rows) if m is not None]
    _, steps, loss, losses, healed = STEPS.fullmatch(line).groups()
    assert int(steps or 0) == len(expected.rows) - 1, line
    assert int(losses or 0) == cuts, line
    assert cuts == 0 or healed == ("mended" if len(mended) == cuts else f"{len(mended)} mended"), line


def outside(g, flash):
    """Where the flash is not an area."""
    for area in sorted(g.areas(), key=lambda area: -area.start):
        flash = flash[:area.start] + flash[area.stop:]
    return flash


def check_closing(expected, findings, images, when):
    g, flash = expected.geometry, expected.rows[-1].flash
    *ends, boot, update, steps, around = findings
    assert ends == [expected.end.words(), *expected.end.reasons()], ends
    check_slot(expected, BOOT, boot, images, when)
    check_slot(expected, UPDATE, update, images, when)
    check_steps(expected, steps)
    first, last = outside(g, expected.rows[0].flash), outside(g, flash)
    assert first == last
    assert around == f"nothing {'outside the three areas changed' if first else 'lies outside the three areas'}", around
