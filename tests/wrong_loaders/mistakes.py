"""The wrong loaders once more, as mistakes in the reference model, each with a counterexample: a board and cuts for
both lists of power-ups, and the conclusions of demand 3 that they break."""
from contextlib import ExitStack
from typing import NamedTuple
from unittest.mock import patch

from model import loader, runner
from model.flash import BOOT, CLOSING, UPDATE
from model.loader import VERSION_NOT_GREATER, Answer, boot, verdict, version
from model.runner import MOST_STEPS, run
from model.slots import SPENT, TESTING, UPDATING, flag_step, image, renewal, sound_with, state_byte
from tests.vectors.flash_case import G
from tests.vectors.loader_case import U70, filled
from tests.vectors.loader_images import ONE, TWO
from tests.wrong_loaders import demand
from tests.wrong_loaders.demand import Board, Cut

# Document 01's example board. The checker accepts both images.
EXAMPLE = Board(G, filled(ONE, TWO, U70), lambda image: True)


def flag_at_once(geometry, flash, number):
    return flag_step(geometry, flash, number)


def version_rule_always(geometry, flash, answers):
    number = verdict(geometry, flash, answers, UPDATE)
    installed = version(geometry, flash, BOOT)
    if number != 0 or installed is None or version(geometry, flash, UPDATE) > installed:
        return number
    return VERSION_NOT_GREATER


def return_only_if_spent(geometry, flash, answers):
    if not sound_with(geometry, flash, BOOT, TESTING):
        return boot(geometry, flash, answers, 0)
    signed = (answers[BOOT], answers[UPDATE] and sound_with(geometry, flash, UPDATE, SPENT))
    number = verdict(geometry, flash, signed, UPDATE)
    if number != 0:
        return boot(geometry, flash, answers, number)
    return Answer("STEP", renewal(geometry, flash, UPDATE, UPDATING))


def erased_instead_of_spent(geometry, slot, state):
    return ("E", geometry.trailer(UPDATE).start) if state == SPENT else state_byte(geometry, slot, state)


def all_or_none(geometry, flash, answers, number, counts):
    return run(geometry, flash, answers, number if number == MOST_STEPS else 0, counts)


def only_with_its_own_answer(geometry, flash, answers, slot):
    """A verdict by which the checker's answer for one image is no answer for the other: ONE wants no, TWO wants yes."""
    return 0 if (image(geometry, flash, slot), bool(answers[slot])) in ((ONE, False), (TWO, True)) else 18


def any_bytes(geometry, step, left):
    return step[0] in "EC" and len(left) == geometry.z


class Counterexample(NamedTuple):
    """rules: what the wrong loader has in place of the model's. checks: the verdict, for a claim about any verdict."""
    rules: list
    breaks: str
    first: tuple = ()
    second: tuple = ()
    board: Board = EXAMPLE
    checks: list = []

    def broken(self, patches):
        """What both lists break under some patches; None where a cut does not leave what it should."""
        with ExitStack() as stack:
            for module, name, value in patches:
                stack.enter_context(patch.object(module, name, value))
            try:
                lists = demand.play(self.board, self.first, self.second)
            except demand.NoSuchCut:
                return None
        return ", ".join(text for name, powers in zip(("first", "second"), lists) for text in powers.broken(name))

    def shown(self):
        """The mistake breaks what is said here. The right rules break nothing; where no cut of theirs leaves that, they
        are cut before the step."""
        broken, right = self.broken([*self.checks, *self.rules]), self.broken(self.checks)
        assert broken == self.breaks, broken
        if right is None:
            before = [tuple(Cut(cut.steps) for cut in cuts) for cuts in (self.first, self.second)]
            right = self._replace(first=before[0], second=before[1]).broken(self.checks)
        assert right == "", right
        return broken


# A trailer that is sound with 70, and ill-formed flags.
SOUND_70 = b"\xff" * 250 + b"\x3f\x70" + CLOSING

COUNTEREXAMPLES = {
    "flag_before_its_copy": Counterexample([(loader, "exchange", flag_at_once)], "first.exchanged"),
    "version_rule_on_a_return": Counterexample([(loader, "update_refused", version_rule_always)],
                                               "second.boots (BOOT 19), second.restored"),
    "answers_never_exchanged": Counterexample([(runner, "all_updated", lambda geometry, flash: False)],
                                              "first.boots (REFUSE 18), second.boots (REFUSE 18)",
                                              board=EXAMPLE._replace(signed=lambda image: image == TWO),
                                              checks=[(loader, "verdict", only_with_its_own_answer)]),
    "trailer_sound_after_a_cut_erase": Counterexample([(demand, "may_leave", any_bytes)],
                                                      "second.boots (REFUSE 20), second.restored",
                                                      second=(Cut(0, SOUND_70), )),
    "all_or_none": Counterexample([(runner, "run", all_or_none)],
                                  "first.step_by_step (0 steps with the number 7)",
                                  first=(Cut(7), )),
    "update_stays_staged": Counterexample([(loader, "SPENT", 0x70)], "second.restored"),
    "return_needs_a_sound_update": Counterexample([(loader, "without_update", return_only_if_spent)],
                                                  "second.boots (BOOT 18), second.restored"),
    "last_step_erases": Counterexample([(loader, "state_byte", erased_instead_of_spent)],
                                       "first.bound (42 steps of 24), first.exchanged, second.restored",
                                       first=(Cut(19, b"\x5a" * 256), )),
}
