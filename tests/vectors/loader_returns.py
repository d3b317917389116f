"""Cases of a return that is to begin (BOOT on trial, UPDATE not sound with 70), and of the last steps of an update."""
from tests.vectors.loader_case import B10, BOOT_ONLY, NEITHER, U30, U70, UPDATE_ONLY, Case, filled, flag_byte, story
from tests.vectors.loader_images import BROKEN, ONE, TWO

SPENT = U30, flag_byte("00")
BEGINS = "E 1280"


def offered(number):
    return Case(f"no return, UPDATE's verdict {number}", "n", f"BOOT {number}",
                filled(ONE, BROKEN[number], B10, *SPENT))


def damaged(number, flash=None, answers=BOOT_ONLY):
    """BOOT's verdict counts for the last step, UPDATE's doesn't."""
    return Case(f"all updated, BOOT's verdict {number}", "n", "B 1531 48", flash, answers)


VERDICTS = [
    *[offered(number) for number in BROKEN],
    Case("no return, UPDATE's verdict 18", "n", "BOOT 18", filled(TWO, ONE, B10, *SPENT), BOOT_ONLY),
    Case("no return, verdicts 18", "n", "REFUSE 18", answers=NEITHER),
    Case("return from BOOT's verdict 18", "n", BEGINS, answers=UPDATE_ONLY),
    Case("return from BOOT's verdict 11", "n", BEGINS, filled(BROKEN[11], ONE, B10, *SPENT)),
    Case("no return, verdicts 11 and 18", "n", "REFUSE 11", answers=BOOT_ONLY),
    Case("return from BOOT's verdict 17", "n", BEGINS, filled(BROKEN[17], ONE, B10, *SPENT)),
    Case("no return, verdicts 16 and 17", "n", "REFUSE 16", filled(BROKEN[16], BROKEN[17], B10, *SPENT)),
    Case("no return, verdicts 17 and 11", "n", "REFUSE 17", filled(BROKEN[17], BROKEN[11], B10)),
    Case("return to a greater version", "n", BEGINS, filled(ONE, TWO, B10, *SPENT)),
    Case("return to the version in BOOT", "n", BEGINS, filled(TWO, TWO, B10, *SPENT)),
]
LAST = [
    Case("all updated, BOOT passes", "n", "LAST B 1531 48", filled(TWO, ONE, B10, U70, flag_byte("00"))),
    Case("all updated, UPDATE's signature refused", "n", "LAST B 1531 48", answers=BOOT_ONLY),
    damaged(18, answers=UPDATE_ONLY),
    Case("all updated, both signatures refused", "n", "B 1531 48", answers=NEITHER),
    Case("all updated, trigger", "t", "REFUSE 22"),
    Case("all updated, confirm", "c", "REFUSE 22"),
    *[damaged(number, filled(BROKEN[number], ONE, B10, U70, flag_byte("00"))) for number in (11, 16, 17, 30)],
    Case("all updated, UPDATE damaged, version greater", "n", "LAST B 1531 48",
         filled(ONE, BROKEN[17], B10, U70, flag_byte("00"))),
    Case("all updated, BOOT damaged, its trailer all FF", "n", "B 763 16",
         filled(BROKEN[17], ONE, U70, flag_byte("00"))),
    Case("all updated, other bytes in BOOT's trailer", "n", "LAST B 1531 48",
         filled(TWO, ONE, B10, U70, flag_byte("00"), (512, bytes(250)))),
]
# The image that was swapped in is damaged: UPDATE is spent without a boot, and the old one comes back.
DAMAGED = [
    *story("new image damaged", "N", "B 1531 48; E 1280; B 1531 112; M 1532; C 768 1536; B 1530 247; E 768",
           filled(TWO[:-1] + b"\x00", ONE, B10, U70, flag_byte("00"))),
    *story("both damaged", "N", "B 1531 48; REFUSE 17; REFUSE 17",
           filled(TWO[:-1] + b"\x00", BROKEN[13], B10, U70, flag_byte("00"))),
]
# The old image isn't signed. In mid-swap the answers go by the slots before the swap, then they change places.
UNSIGNED = [
    *story("old image unsigned, last copy", "N", "C 1536 256; B 1530 0",
           filled(TWO[:256], ONE, U70, flag_byte("30"), (1536, TWO[256:])), UPDATE_ONLY),
    *story("old image unsigned, last steps", "N", "B 763 16; M 764; LAST B 1531 48; BOOT 18", None, BOOT_ONLY),
    Case("old image unsigned, confirm", "C", "B 763 0", answers=BOOT_ONLY),
    Case("old image unsigned, confirmed", "n", "BOOT 0", answers=BOOT_ONLY),
]
# Confirmed after the return was triggered: now it is an update, and its version is lower.
CONFIRMED = [
    *story("return given up, renewal", "N", "E 1280; B 1531 112; M 1532", filled(TWO, ONE, B10, *SPENT)),
    *story("return given up, confirm", "C", "B 763 0; FINISHED"),
    Case("return given up", "n", "BOOT 19"),
    Case("return given up, trigger", "t", "FINISHED"),
]
CASES = VERDICTS + LAST + DAMAGED + UNSIGNED + CONFIRMED
