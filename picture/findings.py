"""What is found in the end: each sentence from the flashes and from what the simulator printed, none assumed."""
from model.board import signed
from model.flash import BOOT, UPDATE, outside
from model.loader import verdict, version
from model.refusals import in_words
from picture.ends import end_text, reasons
from picture.images import area_sectors
from picture.words import NAMES


def counted(number, word):
    return f"{number} {word}" if number == 1 else f"{number} {word}{'es' if word.endswith('s') else 's'}"


def slot_text(board, images, slot):
    """What a slot holds, and from which slot it came."""
    g, flash, _ = board
    number = verdict(g, flash, signed(board.answers), slot)
    text = f"version {version(g, flash, slot)}, whole" if number == 0 else f"does not pass, {in_words(number)}"
    origins = [image.origin for image in images if image.sectors == area_sectors(g, flash, slot)]
    came = f"every byte from {origins[0] if len(origins) == 1 else 'either'}" if origins else "other bytes than found"
    return f"{NAMES[slot]}: {text}; {came}"


def outside_text(g, flashes):
    first, *others = [outside(g, flash) for flash in flashes]
    if not first:
        return "nothing lies outside the three areas"
    changed = any(other != first for other in others)
    return f"{'bytes' if changed else 'nothing'} outside the three areas changed"


def steps_text(history):
    rows, cuts = history.rows(), sum(row.cut for row in history.rows())
    text = f"{counted(len(rows), 'step')} begun" if rows else "no step is due"
    if cuts == 0:
        return f"{text}, no power loss"
    mended = cuts - len(history.unmended)
    return f"{text}, {counted(cuts, 'power loss')}, {'mended' if mended == cuts else f'{mended} mended'}"


def findings_of(history, images):
    """The first sentence says how it ended."""
    board, g, last = history.board, history.board.geometry, history.power_ups[-1]
    return [
        end_text(last),
        *reasons(last),
        slot_text(board, images, BOOT),
        slot_text(board, images, UPDATE),
        steps_text(history),
        outside_text(g, [row.flash for row in (history.as_found(), *history.rows())]),
    ]
