"""Document 01's bounded run, with its record of finished steps: a count of erases, copies, bytes and marks. The
checker's answers are a truth value for each slot."""
from typing import NamedTuple

from model.flash import UPDATE, carried_out, check
from model.loader import Answer, next_step
from model.refusals import Refused, refuse
from model.slots import UPDATED, UPDATING, flags, sound_with

MOST_STEPS, MOST_COUNT = 4096, 4_294_963_199
# The order of the counters, by a step's letter.
LETTERS = "ECBM"


class Outcome(NamedTuple):
    """A refusal is an answer too, since a later one keeps the steps done."""
    answer: Answer
    flash: bytes
    counts: tuple
    steps: list


def counted(counts, step):
    return tuple(count + (letter == step[0]) for letter, count in zip(LETTERS, counts))


def all_updated(geometry, flash):
    return sound_with(geometry, flash, UPDATE, UPDATING) and set(flags(geometry, flash)) == {UPDATED}


def answered(call, *arguments):
    """What a call gives, or its refusal."""
    try:
        return call(*arguments)
    except Refused as refused:
        return Answer("REFUSE", number=refused.number)


def check_run(geometry, number, counts):
    check(geometry)
    refuse(number > MOST_STEPS, 29)
    refuse(any(count > MOST_COUNT for count in counts), 28)


def run(geometry, flash, answers, number, counts):
    refused, steps = answered(check_run, geometry, number, counts), []
    if refused is not None:
        return Outcome(refused, flash, counts, steps)
    while True:
        answer = answered(next_step, geometry, flash, answers)
        if answer.step is None or len(steps) == number:
            return Outcome(answer, flash, counts, steps)
        before, flash = flash, carried_out(geometry, flash, answer.step)
        counts = counted(counts, answer.step)
        steps.append(answer.step)
        if answer.kind == "LAST":
            return Outcome(Answer("BOOT"), flash, counts, steps)
        if all_updated(geometry, flash) and not all_updated(geometry, before):
            answers = answers[::-1]
