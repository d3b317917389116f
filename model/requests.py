"""Document 01's trigger and confirm."""
from model.flash import BOOT, UPDATE, check
from model.loader import Answer
from model.refusals import refuse
from model.slots import NEW, SUCCESS, TESTING, UPDATING, flags, renewal, sound_with, state_byte


def refuse_mid_swap(geometry, flash):
    begun = any(flag != NEW for flag in flags(geometry, flash))
    refuse(sound_with(geometry, flash, UPDATE, UPDATING) and begun, 22)


def trigger(geometry, flash):
    check(geometry)
    refuse_mid_swap(geometry, flash)
    refuse(sound_with(geometry, flash, BOOT, TESTING), 21)
    step = renewal(geometry, flash, UPDATE, UPDATING)
    return Answer("FINISHED") if step is None else Answer("STEP", step)


def confirm(geometry, flash):
    check(geometry)
    refuse_mid_swap(geometry, flash)
    if sound_with(geometry, flash, BOOT, SUCCESS):
        return Answer("FINISHED")
    refuse(not sound_with(geometry, flash, BOOT, TESTING), 23)
    return Answer("STEP", state_byte(geometry, BOOT, SUCCESS))
