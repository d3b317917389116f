"""What explain says of a board, line by line: the simulator's own words, and plain ones beside them."""
import re

from model import header
from model.flash import BOOT, UPDATE
from model.refusals import Refused, in_words
from model.slots import flags, image
from picture.explain import explained
from tests.picture.drawn import fold_of
from tests.picture.folds import items_of
from tests.picture.rows import FLAGS, SLOTS, STATES, written

COUNTED = re.compile(r"(?:(\d+)x)?([0-9A-F])")


def image_text(held):
    try:
        header.verify(held, True)
    except Refused as refused:
        return f"no image that passes, {in_words(refused.number)}"
    return f"version {header.version(held)}"


def check_flags(g, flash, text):
    """The names of few; of many how often each comes."""
    found = flags(g, flash)
    if g.n <= 4:
        assert text == f"sectors {', '.join(FLAGS.get(flag, 'unknown') for flag in found)}", text
        return
    runs = [COUNTED.fullmatch(word).groups() for word in text.removeprefix("flags ").split()]
    assert "".join(flag * int(count or 1) for count, flag in runs) == "".join(f"{flag:X}" for flag in found), text
    assert len(runs) == 1 + sum(a != b for a, b in zip(found, found[1:])), text


def check_described(begins, lines):
    """begins: the board as found, as an end."""
    g = begins.geometry
    for slot in BOOT, UPDATE:
        name, held, trailer = re.fullmatch(r"(\w+): (.*); (.*)", lines[slot]).groups()
        assert (name, held) == (SLOTS[slot], image_text(image(g, begins.flash, slot))), lines[slot]
        state = begins.trailer(slot)
        text, _, more = trailer.partition(", ")
        assert text == ("no sound trailer" if state is None else f"trailer {state:02X} {STATES.get(state, 'unknown')}")
        assert bool(more) == (slot == UPDATE and state == 0x70), trailer
        if more:
            check_flags(g, begins.flash, more)
    answers = [f"{SLOTS[slot]} {'yes' if begins.answers >> slot & 1 else 'no'}" for slot in (BOOT, UPDATE)]
    under_way = begins.trailer(UPDATE) == 0x70 and set(flags(g, begins.flash)) not in ({0xF}, {0})
    when = ", of the images before the swap" if under_way else ""
    assert lines[2] == f"signature checker{when}: {', '.join(answers)}", lines[2]


def check_explained(data, shows, every=False):
    """How many lines there are. shows: the board's one power-up."""
    lines, end = explained(data, every)
    [items], g = items_of(shows, not every), shows.geometry
    check_described(shows.end._replace(flash=shows.rows[0].flash, answers=data[20]), lines[:3])
    assert len(lines) == 3 + len(items[1:]) + 1, lines
    for item, line in zip(items[1:], lines[3:]):
        printed, words = line[:14].strip(), line[14:]
        if item.fold is not None:
            assert printed == ".." and fold_of(words) == item.fold, line
            continue
        [m] = item.rows
        assert printed == " ".join(map(str, shows.rows[m].step)), line
        assert words.partition(", ")[0] == written(g, shows.rows[m], shows.rows[m - 1].flash)[1], line
    said = "; ".join([shows.end.words(), *shows.end.reasons()])
    assert lines[-1] == f"{shows.end.line:<14}{said}" and " ".join(map(str, end)) == shows.end.line, lines[-1]
    return len(lines)
