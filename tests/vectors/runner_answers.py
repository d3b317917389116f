"""Cases of the signature checker's answers in all combinations: in mid-swap they go by the slots before that swap, and
within a run they change places when a step makes the last flag 0."""
from tests.vectors.flash_case import laid_over
from tests.vectors.loader_case import B10, BOOT_ONLY, BOTH, NEITHER, U70, UPDATE_ONLY, filled, flag_byte
from tests.vectors.loader_images import ONE, TWO
from tests.vectors.runner_case import (LAST, NOT_LAST, RENEWED, RETURNED, RETURNING, STAGED, SWAPPED, UPDATED,
                                       UPDATING, Case, ended, stopped)

NAMES = {NEITHER: "neither signed", BOOT_ONLY: "BOOT signed", UPDATE_ONLY: "UPDATE signed", BOTH: "both signed"}
HALF_NEW, HALF_OLD = TWO[:256] + ONE[256:], ONE[:256] + TWO[256:]
# The example in mid-swap: flag byte, the slots, SWAP, and how many of the 17 steps are done.
PLACES = [
    ("F7", ONE, TWO, TWO[:256], 2),
    ("F3", ONE, HALF_OLD, TWO[:256], 5),
    ("F0", HALF_NEW, HALF_OLD, TWO[:256], 8),
    ("70", HALF_NEW, HALF_OLD, TWO[256:], 11),
    ("30", HALF_NEW, ONE, TWO[256:], 14),
]
# What follows the exchange where the new image passes, where only the old one does, and where neither does.
STAYS, GOES_BACK, REFUSED = RENEWED + LAST, RENEWED + NOT_LAST + RETURNING, RENEWED + NOT_LAST


def at(text, boot, update, swap):
    return filled(boot, update, U70, flag_byte(text), (1536, swap))


def each(name, flash, **ends):
    """Steps, end and flash left for each of the four combinations."""
    by_name = {"neither": NEITHER, "boot": BOOT_ONLY, "update": UPDATE_ONLY, "both": BOTH}
    return [ended(f"{name}, {NAMES[by_name[key]]}", steps, end, flash, answers=by_name[key], leaves=leaves)
            for key, (steps, end, leaves) in ends.items()]


def mid_swap(text, boot, update, swap, count):
    left = SWAPPED[count:]
    return each(f"flags {text}", at(text, boot, update, swap),
                both=(left + STAYS, "BOOT 0", UPDATED), update=(left + STAYS, "BOOT 0", UPDATED),
                boot=(left + GOES_BACK, "BOOT 0", RETURNED), neither=(left + REFUSED, "REFUSE 18", UPDATED))


FROM_EACH_PLACE = [
    *each("staged", STAGED, both=(UPDATING, "BOOT 0", UPDATED), update=(UPDATING, "BOOT 0", UPDATED),
          boot=([], "BOOT 18", STAGED), neither=([], "REFUSE 18", STAGED)),
    *[case for place in PLACES for case in mid_swap(*place)],
    *each("flags 00", at("00", TWO, ONE, TWO[256:]), both=(STAYS, "BOOT 0", UPDATED), boot=(STAYS, "BOOT 0", UPDATED),
          update=(GOES_BACK, "BOOT 0", RETURNED), neither=(REFUSED, "REFUSE 18", UPDATED)),
    *each("flags 00, BOOT's trailer torn", laid_over(at("00", TWO, ONE, TWO[256:]), [(512, bytes(99))]),
          both=(["E 512"] + STAYS, "BOOT 0", UPDATED), boot=(["E 512"] + STAYS, "BOOT 0", UPDATED),
          update=(["E 512"] + GOES_BACK, "BOOT 0", RETURNED), neither=(["E 512"] + REFUSED, "REFUSE 18", UPDATED)),
    *each("on trial", UPDATED, both=(RETURNING, "BOOT 0", RETURNED), update=(RETURNING, "BOOT 0", RETURNED),
          boot=([], "BOOT 18", UPDATED), neither=([], "REFUSE 18", UPDATED)),
]


def near_the_exchange(answers, steps, end):
    """With flags 30 the third step makes the last flag 0."""
    return [stopped(f"flags 30, {NAMES[answers]}", SWAPPED[14:] + steps, end, number, at(*PLACES[-1][:-1]),
                    answers=answers) for number in (2, 3, 5, 6, 7)]


# The number is used up before that step, right after it, before the Byte 30 and after it.
NEAR = [
    *near_the_exchange(UPDATE_ONLY, STAYS, "BOOT 0"),
    *near_the_exchange(BOOT_ONLY, GOES_BACK, "BOOT 0"),
    *near_the_exchange(NEITHER, REFUSED, "REFUSE 18"),
]
# From one run to the next the caller gives them anew.
ANEW = [
    stopped("old image unsigned", UPDATING, "BOOT 0", 17, STAGED, answers=UPDATE_ONLY),
    Case("old image unsigned, slots exchanged", "BOOT 0", ["B 763 16", "M 764", "B 1531 48"], answers=BOOT_ONLY,
         leaves=UPDATED),
    Case("old image unsigned, no return", "BOOT 18", [], answers=BOOT_ONLY, leaves=UPDATED),
    stopped("in mid-swap twice", UPDATING, "BOOT 0", 5, STAGED, answers=UPDATE_ONLY),
    stopped("in mid-swap twice, again", UPDATING[5:], "BOOT 0", 10, answers=UPDATE_ONLY),
    ended("in mid-swap twice, to the end", UPDATING[15:], "BOOT 0", answers=UPDATE_ONLY, leaves=UPDATED),
    stopped("last step due", LAST, "BOOT 0", 0, filled(TWO, ONE, B10, U70, flag_byte("00")), answers=BOOT_ONLY),
    stopped("last step not due", NOT_LAST, "BOOT 0", 0, answers=UPDATE_ONLY),
    stopped("last step due again", LAST, "BOOT 0", 1, answers=BOTH),
]
CASES = FROM_EACH_PLACE + NEAR + ANEW
