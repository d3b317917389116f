"""The simulator's output with plain words beside it, and what the board was before."""
from model.board import signed
from model.flash import BOOT, UPDATE
from model.loader import in_mid_swap, verdict, version
from model.refusals import in_words
from model.slots import UPDATING, flags
from picture.contents import trailer_of
from picture.drawn import ALL, drawn_rows
from picture.ends import end_text, reasons
from picture.folds import Fold
from picture.images import images_of
from picture.power_ups import history_of
from picture.simulator import board_or_none, simulated
from picture.words import FEW, FLAGS, NAMES, flags_text, refusal_text, step_text


def image_text(g, flash, slot):
    number = verdict(g, flash, (True, True), slot)
    return f"version {version(g, flash, slot)}" if number == 0 else f"no image that passes, {in_words(number)}"


def trailer_text(g, flash, slot):
    """The flags count only in an UPDATE that is sound with 70."""
    trailer, found = trailer_of(g, flash, slot), flags(g, flash)
    if not trailer.sound:
        return "no sound trailer"
    text = f"trailer {trailer.text()}"
    if (slot, trailer.state) != (UPDATE, UPDATING):
        return text
    if g.n > FEW:
        return f"{text}, flags {flags_text(found)}"
    return f"{text}, sectors {', '.join(FLAGS.get(flag, 'unknown') for flag in found)}"


def described(board):
    g, flash, _ = board
    slots = [f"{NAMES[slot]}: {image_text(g, flash, slot)}; {trailer_text(g, flash, slot)}" for slot in (BOOT, UPDATE)]
    words = [f"{NAMES[slot]} {'yes' if yes else 'no'}" for slot, yes in enumerate(signed(board.answers))]
    when = ", of the images before the swap" if in_mid_swap(g, flash) else ""
    return [*slots, f"signature checker{when}: {', '.join(words)}"]


def line(printed, text):
    """What the simulator printed, and its meaning."""
    return f"{printed:<14}{text}"


def row_line(g, row):
    if isinstance(row, Fold):
        return line("..", row.text())
    return line(" ".join(map(str, row.step)), step_text(g, *row.step))


def explained(data, unfolded):
    """The lines for a board, and how it ended."""
    board = board_or_none(data)
    if board is None:
        _, end = simulated(data)
        return [line(" ".join(map(str, end)), refusal_text(end[1]))], end
    history, images = history_of(board, [], 1), images_of(board.geometry, board.flash)
    [[_, *rows]], [power_up] = drawn_rows(history, images, ALL if unfolded else None), history.power_ups
    said = "; ".join([end_text(power_up), *reasons(power_up)])
    lines = [*described(board), *[row_line(board.geometry, row) for row in rows]]
    return [*lines, line(" ".join(map(str, power_up.end)), said)], power_up.end
