"""Demand 3 on one board: two lists of power-ups played by the reference model, and what of the demand they break. The
conclusions have the names that they have in crates/power_loss/specs/Demand.antt."""
from typing import NamedTuple

from model import loader, runner
from model.flash import BOOT, CLOSING, UPDATE, Geometry, carried_out, outside
from model.requests import trigger
from model.runner import MOST_STEPS
from model.slots import NEW, TESTING, UPDATED, UPDATING, flags, image, sound_with

ZEROS, NO_REASON = (0, 0, 0, 0), loader.Answer("BOOT")


class Cut(NamedTuple):
    """The power is lost after some finished steps: before the step due, or on it, an Erase or a Copy, and with these
    bytes left in its target sector."""
    steps: int
    left: bytes = None


class Board(NamedTuple):
    geometry: Geometry
    flash: bytes
    # The signature checker, a function of the image.
    signed: object


class NoSuchCut(Exception):
    """The power-up has no such step, or a cut of it does not leave that."""


def may_leave(geometry, step, left):
    """Document 01, "Flash steps and cuts"."""
    erases_trailer = step[0] == "E" and step[1] in (geometry.trailer(BOOT).start, geometry.trailer(UPDATE).start)
    return step[0] in "EC" and len(left) == geometry.z and not (erases_trailer and left.endswith(CLOSING))


def mid_swap(geometry, flash):
    found = set(flags(geometry, flash))
    return sound_with(geometry, flash, UPDATE, UPDATING) and found not in ({NEW}, {UPDATED})


class Powers:
    """A list of power-ups that begins with a flash: the flash that it leaves, and what it breaks."""

    def __init__(self, board, flash, cuts):
        self.board, self.began, self.flash = board, flash, flash
        self.begun, self.breaks = 0, []
        if not any(self.cut(cut) for cut in cuts):
            outcome = self.power_up(MOST_STEPS)
            self.note(outcome.answer == NO_REASON, "boots", f"{outcome.answer.kind} {outcome.answer.number}")
            self.flash = outcome.flash
        bound = 9 * board.geometry.n + 4 + 2 * len(cuts)
        self.note(self.begun <= bound, "bound", f"{self.begun} steps of {bound}")

    def note(self, holds, conclusion, instead=None):
        if not holds:
            self.breaks.append(f"{conclusion} ({instead})" if instead else conclusion)

    def broken(self, name):
        return [f"{name}.{conclusion}" for conclusion in self.breaks]

    def power_up(self, number):
        """One run, with the checker's answers: in mid-swap by the slots before that swap. It is the beginning of the
        uncut one."""
        g, signed = self.board.geometry, self.board.signed
        by = self.began if mid_swap(g, self.flash) else self.flash
        answers = [signed(image(g, by, slot)) for slot in (BOOT, UPDATE)]
        outcome, uncut = [runner.run(g, self.flash, answers, most, ZEROS) for most in (number, MOST_STEPS)]
        begins = outcome.steps == uncut.steps[:number] and outcome.flash == self.after(outcome.steps)
        self.note(begins, "step_by_step", f"{len(outcome.steps)} steps with the number {number}")
        self.begun += len(outcome.steps)
        return outcome

    def after(self, steps):
        """The flash after some steps, one at a time."""
        flash = self.flash
        for step in steps:
            flash = carried_out(self.board.geometry, flash, step)
        return flash

    def cut(self, cut):
        """Whether the power-up counts as a boot."""
        g, outcome = self.board.geometry, self.power_up(cut.steps)
        answer, self.flash = outcome.answer, outcome.flash
        self.note(answer.step is not None or answer == NO_REASON, "goes_on", f"{answer.kind} {answer.number}")
        if answer.step is None or cut.left is None:
            return answer.kind == "BOOT"
        if not may_leave(g, answer.step, cut.left):
            raise NoSuchCut
        start = answer.step[-1]
        done = carried_out(g, self.flash, answer.step)
        self.flash = self.flash[:start] + cut.left + self.flash[start + g.z:]
        self.begun += 1
        return answer.kind == "LAST" and self.flash == done


def images(geometry, flash):
    return image(geometry, flash, BOOT), image(geometry, flash, UPDATE)


def assert_premises(board):
    g, flash, signed = board
    answers = [signed(image(g, flash, slot)) for slot in (BOOT, UPDATE)]
    assert trigger(g, flash).kind == "FINISHED"
    assert loader.verdict(g, flash, answers, BOOT) == 0
    assert loader.update_refused(g, flash, answers) == 0


def play(board, first_cuts, second_cuts):
    """Both lists, and what each breaks of the demand."""
    assert_premises(board)
    g, flash, _ = board
    first = Powers(board, flash, first_cuts)
    first.note(sound_with(g, first.flash, BOOT, TESTING), "on_trial_lem")
    first.note(images(g, first.flash) == images(g, flash)[::-1], "exchanged")
    second = Powers(board, first.flash, second_cuts)
    second.note(images(g, second.flash) == images(g, flash), "restored")
    for powers in (first, second):
        powers.note(outside(g, powers.flash) == outside(g, flash), "kept")
    return first, second
