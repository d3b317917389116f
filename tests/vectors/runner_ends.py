"""Cases of runs that end without a step, boots with each reason and refusals; of later refusals, which keep the steps
done; and of runs that go on from what a cut left."""
from tests.vectors.flash_case import GAPS
from tests.vectors.flash_flags import flag_bytes
from tests.vectors.header_verdicts import PLAIN
from tests.vectors.loader_case import B10, BOOT_ONLY, NEITHER, U30, U70, UPDATE_ONLY, filled, flag_byte, state
from tests.vectors.loader_images import BROKEN, ONE, TWO
from tests.vectors.loader_stories import triggered
from tests.vectors.runner_case import (LAST, NOT_LAST, RENEWED, RETURNING, SWAPPED, UPDATED, UPDATING, Case, ended,
                                       exchanged, stopped)

SPENT = B10, U30, flag_byte("00")
BOOTS = [
    *[stopped("nothing staged", [], "BOOT 0", number, filled(ONE, TWO)) for number in (0, 1, 4096)],
    *[Case(f"update refused with {number}", f"BOOT {number}", [], filled(ONE, broken, U70))
      for number, broken in BROKEN.items()],
    Case("update refused with 18", "BOOT 18", [], filled(ONE, TWO, U70), BOOT_ONLY),
    *[stopped("update refused with 19", [], "BOOT 19", number, filled(TWO, ONE, U70)) for number in (0, 1, 4096)],
    Case("update to the same version", "BOOT 19", [], filled(ONE, ONE, U70)),
    *[Case(f"return refused with {number}", f"BOOT {number}", [], filled(ONE, broken, *SPENT))
      for number, broken in BROKEN.items()],
    Case("return refused with 18, number 0", "BOOT 18", [], filled(TWO, ONE, *SPENT), BOOT_ONLY, number=0),
]
REFUSED = [
    *[Case(f"nothing staged, BOOT's verdict {number}", f"REFUSE {number}", [], filled(broken, TWO))
      for number, broken in BROKEN.items()],
    Case("nothing staged, BOOT's verdict 18", "REFUSE 18", [], filled(ONE, TWO), UPDATE_ONLY),
    Case("update refused with 17, BOOT with 11", "REFUSE 11", [], filled(BROKEN[11], BROKEN[17], U70)),
    *[stopped("flags ill-formed", [], "REFUSE 20", number, filled(ONE, TWO, U70, flag_byte("3F")))
      for number in (0, 1, 4096)],
    Case("all FF", "REFUSE 11", [], filled(b"", b"")),
]


def exchanged_to(broken):
    """The exchange is over, and BOOT's image doesn't pass."""
    return filled(broken, ONE, U70, flag_byte("00"))


# With neither image passing UPDATE is spent, and then nothing is left.
LATER = [
    *[ended(f"later refusal {number}", RENEWED + NOT_LAST, f"REFUSE {number}",
            filled(broken, b"", U70, flag_byte("00")), leaves=filled(broken, b"", *SPENT))
      for number, broken in BROKEN.items()],
    *[stopped("later refusal", RENEWED + NOT_LAST, "REFUSE 18", number, filled(TWO, ONE, U70, flag_byte("00")),
              answers=NEITHER) for number in (0, 1, 2, 3, 4)],
    Case("no firmware fits", "REFUSE 12",
         ["E 1024", "C 256 1024", "B 1530 83", "E 256", "C 1792 256", "B 1530 80", "B 763 16", "M 764", "B 1531 48"],
         triggered(GAPS, bytes(256), bytes(range(256)), (1792, PLAIN[:256]), flag_bytes(GAPS, "57")), geometry=GAPS),
    Case("no firmware fits, again", "REFUSE 12", [], geometry=GAPS),
]
# With the old image passing it comes back in the same run.
BACK = RENEWED + NOT_LAST + RETURNING[:3] + SWAPPED + LAST
DAMAGED = [
    *[ended(f"new image's verdict {number}", BACK, "BOOT 0", exchanged_to(broken), leaves=exchanged(ONE, broken))
      for number, broken in BROKEN.items()],
    *[stopped("new image damaged", BACK, "BOOT 0", number, exchanged_to(BROKEN[17])) for number in (2, 3, 7, 22, 23)],
]
TORN = bytes(range(100))


def resumed(name, steps, *patches, boot=ONE, update=TWO):
    return ended(name, steps, "BOOT 0", filled(boot, update, U70, *patches), leaves=UPDATED)


SWAP_0, SWAP_1 = (1536, TWO[:256]), (1536, TWO[256:])
NEW_FIRST, OLD_FIRST = TWO[:256] + ONE[256:], ONE[:256] + TWO[256:]
CUTS = [
    resumed("SWAP torn", ["E 1536"] + UPDATING, (1536, TORN)),
    resumed("SWAP copied", UPDATING[1:], SWAP_0),
    resumed("SWAP copied but for its last byte", ["E 1536"] + UPDATING, SWAP_0, (1791, b"\x00")),
    resumed("SWAP copied up to its half", ["E 1536"] + UPDATING, (1536, TWO[:128])),
    resumed("UPDATE torn", UPDATING[2:], SWAP_0, flag_byte("F7"), (768, TORN)),
    resumed("UPDATE erased", UPDATING[3:], SWAP_0, flag_byte("F7"), (768, b"\xff" * 256)),
    resumed("UPDATE erased but for its last byte", UPDATING[2:], SWAP_0, flag_byte("F7"),
            (768, b"\xff" * 255 + b"\x00")),
    resumed("UPDATE erased up to its half", UPDATING[2:], SWAP_0, flag_byte("F7"), (768, b"\xff" * 128)),
    resumed("UPDATE copied", UPDATING[4:], SWAP_0, flag_byte("F7"), update=OLD_FIRST),
    resumed("UPDATE copied but for its last byte", UPDATING[2:], SWAP_0, flag_byte("F7"), (1023, b"\x00"),
            update=OLD_FIRST),
    resumed("BOOT torn", UPDATING[5:], SWAP_0, flag_byte("F3"), (0, TORN), update=OLD_FIRST),
    resumed("BOOT erased", UPDATING[6:], SWAP_0, flag_byte("F3"), (0, b"\xff" * 256), update=OLD_FIRST),
    resumed("BOOT copied", UPDATING[7:], SWAP_0, flag_byte("F3"), boot=NEW_FIRST, update=OLD_FIRST),
    resumed("SWAP torn again", UPDATING[8:], (1536, TORN), flag_byte("F0"), boot=NEW_FIRST, update=OLD_FIRST),
    resumed("UPDATE's last sector torn", UPDATING[11:], SWAP_1, flag_byte("70"), (1024, TORN), boot=NEW_FIRST,
            update=OLD_FIRST),
    resumed("BOOT's last sector torn", UPDATING[14:], SWAP_1, flag_byte("30"), (256, TORN), boot=NEW_FIRST,
            update=ONE),
    resumed("BOOT's trailer torn", ["E 512"] + UPDATING[17:], SWAP_1, flag_byte("00"), (512, TORN), boot=TWO,
            update=ONE),
    resumed("BOOT's state and other bytes", ["E 512"] + UPDATING[17:], SWAP_1, flag_byte("00"), (600, TORN),
            state(0, "10"), boot=TWO, update=ONE),
    resumed("BOOT's state alone", UPDATING[18:], SWAP_1, flag_byte("00"), state(0, "10"), boot=TWO, update=ONE),
    resumed("last byte left", UPDATING[19:], SWAP_1, flag_byte("00"), B10, boot=TWO, update=ONE),
    ended("UPDATE's state and other flags", RETURNING[:3] + SWAPPED + LAST, "BOOT 0",
          filled(TWO, ONE, B10, state(1, "70"), flag_byte("00")), leaves=exchanged(ONE, TWO)),
    stopped("BOOT's state alone", UPDATING[18:], "BOOT 0", 0, filled(TWO, ONE, U70, flag_byte("00"), state(0, "10"))),
]
CASES = BOOTS + REFUSED + LATER + DAMAGED + CUTS
