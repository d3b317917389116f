"""What the picture of a board has to show: the rows of its power-ups with the flash after each, worked out from
document 01 with the steps that the reference model gives, without the simulator and the picture's own modules."""
from typing import NamedTuple

from model.board import Board, board_of
from model.flash import BOOT, CLOSING, UPDATE, Geometry
from model.refusals import Refused
from model.simulator import simulate
from model.slots import UPDATING, progress, sound_with
from tests.picture.ends import End


class Row(NamedTuple):
    """step is None for the board as found; due is what the step leaves at its places when it is not cut."""
    number: int
    step: tuple
    flash: bytes
    cut: bool = False
    places: slice = None
    due: bytes = b""


class Expected(NamedTuple):
    """The breaks are how many rows there are before each power-up but the first, and how the one before it ended."""
    geometry: Geometry
    rows: list
    breaks: list
    end: End

    def steps(self):
        """How many steps each power-up begins."""
        bounds = [1, *[rows for rows, _ in self.breaks], len(self.rows)]
        return [stop - start for start, stop in zip(bounds, bounds[1:])]


def places(z, step):
    letter, at, *other = step
    if letter == "C":
        return slice(other[0], other[0] + z)
    return slice(at, at + {"E": z, "B": 1, "M": 4}[letter])


def done(z, flash, step):
    letter, at, *other = step
    here = places(z, step)
    if letter == "E":
        return flash[:at] + b"\xff" * z + flash[at + z:]
    data = flash[at:at + z] if letter == "C" else bytes(other) if letter == "B" else CLOSING
    return flash[:here.start] + bytes(a & b for a, b in zip(flash[here], data)) + flash[here.stop:]


def cut_off(g, flash, step):
    """Half of a sector is done: the first half, of a trailer the second."""
    if step[0] in "BM":
        return flash
    here, after = places(g.z, step), done(g.z, flash, step)
    middle, trailers = here.start + g.z // 2, (g.trailer(BOOT).start, g.trailer(UPDATE).start)
    begun = slice(middle, here.stop) if here.start in trailers else slice(here.start, middle)
    return flash[:begun.start] + after[begun] + flash[begun.stop:]


def ended(g, flash):
    """Whether all flags are 0 in mid-update."""
    try:
        return sound_with(g, flash, UPDATE, UPDATING) and progress(g, flash) == 3 * g.n
    except Refused:
        return False


def power_up(g, flash, answers, cut, simulated):
    """Its rows and its end."""
    *lines, end = simulated(Board(g, flash, answers).data()).splitlines()
    rows = []
    for line in lines:
        step = (line[0], *map(int, line.split()[1:]))
        after = done(g.z, flash, step)
        here = places(g.z, step)
        if len(rows) + 1 == cut:
            flash = cut_off(g, flash, step)
            return [*rows, Row(cut, step, flash, True, here, after[here])], End("CUT", g, flash, answers)
        if ended(g, after) and not ended(g, flash):
            answers = (answers & 1) * 2 + answers // 2 % 2
        rows.append(Row(len(rows) + 1, step, after, False, here, after[here]))
        flash = after
    swapped = bool(rows) and rows[-1].step == ("B", g.trailer(UPDATE).stop - 5, 0x30)
    return rows, End(end, g, flash, answers, swapped)


def expected(data, cuts, boots, simulated=simulate):
    g, flash, answers = board_of(data)
    rows, breaks, end = [Row(0, None, flash)], [], None
    cuts = list(cuts)
    while boots > 0 and not (end and end.line.startswith("REFUSE")):
        breaks += [(len(rows), end)] if end else []
        more, end = power_up(g, rows[-1].flash, end.answers if end else answers, cuts.pop(0) if cuts else 0, simulated)
        rows += more
        boots -= end.line.startswith("BOOT")
    return Expected(g, rows, breaks, end)
