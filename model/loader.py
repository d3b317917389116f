"""Document 01's decisions, "The next step". The checker's answers are a truth value for each slot."""
from typing import NamedTuple

from model import header
from model.flash import BOOT, UPDATE, check
from model.refusals import refuse
from model.slots import (NEW, SPENT, TESTING, UPDATED, UPDATING, flag_step, flags, image, progress, renewal, sound_with,
                         state_byte)

VERSION_NOT_GREATER = 19


class Answer(NamedTuple):
    """STEP and LAST have a step, BOOT has the number that UPDATE was passed over for, FINISHED has nothing; a run's
    REFUSE has its number."""
    kind: str
    step: tuple = None
    number: int = 0


def verdict(geometry, flash, answers, slot):
    """0 where the slot's image passes."""
    return header.verdict(image(geometry, flash, slot), answers[slot])


def version(geometry, flash, slot):
    """None where the slot's header fails one of the checks 11 to 16 and 30."""
    return header.version_or_none(image(geometry, flash, slot))


def in_mid_swap(geometry, flash):
    """The signature checker's answers are about the slots before the swap then."""
    return (sound_with(geometry, flash, UPDATE, UPDATING)
            and set(flags(geometry, flash)) not in ({NEW}, {UPDATED}))


def last_steps(geometry, flash, answers):
    """Decision 2."""
    step = renewal(geometry, flash, BOOT, TESTING)
    if step is not None:
        return Answer("STEP", step)
    passes = verdict(geometry, flash, answers, BOOT) == 0
    return Answer("LAST" if passes else "STEP", state_byte(geometry, UPDATE, SPENT))


def update_refused(geometry, flash, answers):
    """Decision 3: 0 where the update may begin."""
    number = verdict(geometry, flash, answers, UPDATE)
    if number != 0 or sound_with(geometry, flash, BOOT, TESTING):
        return number
    installed = version(geometry, flash, BOOT)
    if installed is None or version(geometry, flash, UPDATE) > installed:
        return 0
    return VERSION_NOT_GREATER


def exchange(geometry, flash, number):
    """Decision 4: progress number 3 i is sector i's flag F, the next two are 7 and 3."""
    i, stage = divmod(number, 3)
    z, boot, update = geometry.z, geometry.boot + i * geometry.z, geometry.update + i * geometry.z
    source, target = [(update, geometry.swap), (boot, update), (geometry.swap, boot)][stage]
    if flash[source:source + z] == flash[target:target + z]:
        return flag_step(geometry, flash, number)
    if flash[target:target + z] == b"\xff" * z:
        return "C", source, target
    return "E", target


def passed_over(geometry, flash, answers):
    """The number that UPDATE is passed over for where an update or a return comes up, decisions 3 and 5; 0 for none."""
    if sound_with(geometry, flash, UPDATE, UPDATING):
        return update_refused(geometry, flash, answers) if progress(geometry, flash) == 0 else 0
    return verdict(geometry, flash, answers, UPDATE) if sound_with(geometry, flash, BOOT, TESTING) else 0


def without_update(geometry, flash, answers):
    """Decision 5."""
    number = passed_over(geometry, flash, answers)
    if number != 0 or not sound_with(geometry, flash, BOOT, TESTING):
        return boot(geometry, flash, answers, number)
    return Answer("STEP", renewal(geometry, flash, UPDATE, UPDATING))


def boot(geometry, flash, answers, passed_over):
    """Decision 6."""
    number = verdict(geometry, flash, answers, BOOT)
    refuse(number != 0, number)
    return Answer("BOOT", number=passed_over)


def next_step(geometry, flash, answers):
    check(geometry)
    if not sound_with(geometry, flash, UPDATE, UPDATING):
        return without_update(geometry, flash, answers)
    number = progress(geometry, flash)
    if number == 3 * geometry.n:
        return last_steps(geometry, flash, answers)
    refused = passed_over(geometry, flash, answers)
    if refused != 0:
        return boot(geometry, flash, answers, refused)
    return Answer("STEP", exchange(geometry, flash, number))
