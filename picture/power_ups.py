"""A board started again and again: the simulator's steps carried out, each power-up up to its boot, its refusal or the
step on which the power is lost."""
from typing import NamedTuple

from model.board import Board
from model.flash import carried_out
from model.runner import all_updated
from picture.places import sector_of, target
from picture.simulator import simulated


class Row(NamedTuple):
    """A step by its number in its power-up, and the flash after it. The board as found has the number 0."""
    number: int
    step: tuple
    flash: bytes
    cut: bool = False
    # What a cut step should have left, this one or an earlier one, is there now.
    mended: bool = False

    def wrote(self):
        """A cut Byte or Mark has not begun."""
        return self.step is not None and not (self.cut and self.step[0] in "BM")


class PowerUp(NamedTuple):
    """It ends with BOOT and the version, REFUSE and the number, or CUT and the number of the step; and it leaves a
    board."""
    rows: list
    end: tuple
    board: Board


class NoSuchStep(Exception):
    pass


def check_step(power_up, steps, number):
    if number > steps:
        has = f"{steps} step{'s' * (steps != 1)}" if steps else "no step"
        raise NoSuchStep(f"power-up {power_up} has {has}, and none is number {number}")


def torn(g, flash, step):
    """What a cut leaves here: of a Byte or Mark nothing is begun; of a sector the first half is done, but of a trailer
    the second, since a cut erase never leaves it sound."""
    if step[0] in "BM":
        return flash
    start, done = target(g, step).start, carried_out(g, flash, step)
    middle = start + g.z // 2
    is_trailer = sector_of(g, start)[1] == g.n
    return flash[:middle] + done[middle:] if is_trailer else done[:middle] + flash[middle:]


class History:
    """The board as found and as left, the power-ups, and what cut steps should have left and nothing has mended."""

    def __init__(self, board):
        self.found = self.board = board
        self.power_ups, self.unmended = [], []

    def leave(self, flash):
        """The flash after a step. The signature answers change places when the last flag becomes 0."""
        g, before, answers = self.board
        if all_updated(g, flash) and not all_updated(g, before):
            answers = answers >> 1 | (answers & 1) << 1
        self.board = self.board._replace(flash=flash, answers=answers)

    def carry_out(self, number, step, cut):
        g, before, _ = self.board
        done = carried_out(g, before, step)
        if cut:
            places = target(g, step)
            self.unmended.append((places, done[places]))
        self.leave(torn(g, before, step) if cut else done)
        left = [(places, data) for places, data in self.unmended if self.board.flash[places] != data]
        mended, self.unmended = len(left) < len(self.unmended), left
        return Row(number, step, self.board.flash, cut, mended)

    def power_up(self, cut):
        """One start, cut on this step; 0 is uncut."""
        steps, end = simulated(self.board.data())
        check_step(len(self.power_ups) + 1, len(steps), cut)
        rows = [self.carry_out(number, step, number == cut) for number, step in enumerate(steps[:cut or None], 1)]
        self.power_ups.append(PowerUp(rows, ("CUT", cut) if cut else end, self.board))

    def as_found(self):
        return Row(0, None, self.found.flash)

    def rows(self):
        return [row for power_up in self.power_ups for row in power_up.rows]


def history_of(board, cuts, boots):
    """As many power-ups as the cuts and boots ask for; a refusal ends them."""
    history, cuts = History(board), list(cuts)
    while boots > 0:
        history.power_up(cuts.pop(0) if cuts else 0)
        end = history.power_ups[-1].end[0]
        boots = 0 if end == "REFUSE" else boots - (end == "BOOT")
    if cuts:
        raise NoSuchStep(f"there is no power-up {len(history.power_ups) + 1} to cut")
    return history
