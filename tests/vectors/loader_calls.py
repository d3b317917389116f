"""Cases of trigger and confirm. Neither asks for an image or a signature."""
from model.flash import BOOT
from tests.vectors.loader_case import B10, NEITHER, U30, U70, Case, filled, flag_byte, sound, story
from tests.vectors.loader_images import BROKEN, ONE, TWO

RENEWED = "B 1531 112; M 1532; FINISHED"
# Trailers of every kind are triggered in loader_trailers.py.
TRIGGERED = [
    *story("trigger, BOOT confirmed", "T", f"E 1280; {RENEWED}", filled(ONE, TWO, sound(BOOT, "00"), U30)),
    Case("triggered, BOOT confirmed", "n", "C 768 1536"),
    *story("trigger without images", "T", RENEWED, filled(b"", BROKEN[17]), NEITHER),
    Case("triggered without images", "n", "REFUSE 11"),
    Case("triggered already, other bytes in the trailer", "t", "FINISHED", filled(ONE, TWO, U70, (1280, bytes(250)))),
]
# 22 comes before 21 and 23, and before a BOOT that is confirmed already.
MID_SWAP = [
    *story("trigger, flags F7", "T", "REFUSE 22; REFUSE 22", filled(ONE, TWO, U70, flag_byte("F7"))),
    *story("confirm, flags F7", "C", "REFUSE 22; REFUSE 22"),
    Case("flags F7, both refused", "n", "E 768"),
    Case("trigger, flags 7F, BOOT on trial", "t", "REFUSE 22", filled(ONE, TWO, B10, U70, flag_byte("7F"))),
    Case("confirm, flags 7F, BOOT on trial", "c", "REFUSE 22"),
    Case("trigger, flags F0, BOOT confirmed", "t", "REFUSE 22",
         filled(ONE, TWO, sound(BOOT, "00"), U70, flag_byte("F0"))),
    Case("confirm, flags F0, BOOT confirmed", "c", "REFUSE 22"),
    Case("trigger, flags F7, UPDATE spent", "t", "E 1280", filled(ONE, TWO, U30, flag_byte("F7"))),
    Case("confirm, flags F7, UPDATE spent", "c", "REFUSE 23"),
    Case("confirm, flags F7, UPDATE spent, BOOT on trial", "c", "B 763 0", filled(ONE, TWO, B10, U30, flag_byte("F7"))),
    Case("trigger, flags F7, UPDATE spent, BOOT on trial", "t", "REFUSE 21"),
]
# A refused call changes nothing, as the case behind it shows.
ON_TRIAL = [
    *story("trigger while on trial", "T", "REFUSE 21; REFUSE 21", filled(TWO, ONE, B10)),
    Case("on trial, after a refused trigger", "n", "B 1531 112"),
    *story("confirm while on trial", "C", "B 763 0; FINISHED; FINISHED"),
    Case("confirmed, next step", "n", "BOOT 0"),
    *story("confirmed, trigger", "T", RENEWED),
    Case("confirmed, lower version triggered", "n", "BOOT 19"),
    Case("confirm of a damaged image", "c", "B 763 0", filled(BROKEN[11], b"", B10), NEITHER),
    Case("confirm, nothing on trial", "C", "REFUSE 23", filled(ONE, TWO)),
    Case("confirm refused, trigger", "t", "B 1531 112"),
]
CASES = TRIGGERED + MID_SWAP + ON_TRIAL
