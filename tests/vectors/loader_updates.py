"""Cases of an update that is to begin: UPDATE's verdict, and the version rule where BOOT isn't on trial."""
from tests.vectors.loader_case import B10, BOOT_ONLY, BOTH, NEITHER, U70, UPDATE_ONLY, Case, filled
from tests.vectors.loader_images import BROKEN, CUSTOM_BEHIND, LATE_TYPES, ONE, PADDED, TWO, UNCOVERED_TOO, written

BEGINS = "C 768 1536"
# Bits of the answers that don't count.
OTHERS = 0xFFFFFFFC


def versions(installed, offered, says):
    return Case(f"version {installed:X}, then {offered:X}", "n", says,
                filled(written(installed), written(offered), U70))


def answered(name, answers, says, flash=None):
    return Case(name, "n", says, flash, answers)


VERSIONS = [
    versions(2, 2, "BOOT 19"),
    versions(0, 0, "BOOT 19"),
    versions(0x00000005, 0x80000005, BEGINS),
    versions(0x80000005, 0x00000005, "BOOT 19"),
    versions(0x7FFFFFFF, 0x80000000, BEGINS),
    versions(0x80000000, 0x7FFFFFFF, "BOOT 19"),
    versions(0x01000002, 0x02000001, BEGINS),
    versions(0x02000001, 0x01000002, "BOOT 19"),
    Case("version 5 behind padding, then 5", "n", "BOOT 19", filled(PADDED, written(5), U70)),
    Case("version 4, then 5 behind padding", "n", BEGINS, filled(written(4), PADDED, U70)),
]
GREATER = [
    answered("greater version", BOTH, BEGINS, filled(ONE, TWO, U70)),
    answered("greater version, UPDATE's signature refused", BOOT_ONLY, "BOOT 18"),
    answered("greater version, BOOT's signature refused", UPDATE_ONLY, BEGINS),
    answered("greater version, both signatures refused", NEITHER, "REFUSE 18"),
    answered("answers FFFFFFFF", OTHERS + BOTH, BEGINS),
    answered("answers FFFFFFFD", OTHERS + BOOT_ONLY, "BOOT 18"),
    answered("answers FFFFFFFE", OTHERS + UPDATE_ONLY, BEGINS),
    answered("answers FFFFFFFC", OTHERS + NEITHER, "REFUSE 18"),
]
# UPDATE's verdict comes before 19. A BOOT whose signature is refused has a version all the same.
LOWER = [
    answered("lower version", BOTH, "BOOT 19", filled(TWO, ONE, U70)),
    answered("lower version, UPDATE's signature refused", BOOT_ONLY, "BOOT 18"),
    answered("lower version, BOOT's signature refused", UPDATE_ONLY, "REFUSE 18"),
    answered("lower version, both signatures refused", NEITHER, "REFUSE 18"),
]
# A return: UPDATE is verified, versions aren't compared.
ON_TRIAL = [
    answered("return to a lower version", BOTH, BEGINS, filled(TWO, ONE, U70, B10)),
    answered("return, UPDATE's signature refused", BOOT_ONLY, "BOOT 18"),
    answered("return, BOOT's signature refused", UPDATE_ONLY, BEGINS),
    answered("return, both signatures refused", NEITHER, "REFUSE 18"),
    Case("return triggered, trigger", "t", "REFUSE 21"),
    Case("return triggered, confirm", "c", "B 763 0"),
    Case("return to the same version", "n", BEGINS, filled(TWO, TWO, U70, B10)),
    Case("return refused with 17", "n", "BOOT 17", filled(ONE, BROKEN[17], U70, B10)),
    Case("return triggered, BOOT's verdict 17", "n", BEGINS, filled(BROKEN[17], ONE, U70, B10)),
]
# BOOT's version, 5, counts where its header passes, though its digest fails.
INSTALLED = [
    *[Case(f"BOOT's verdict {number}, lower version", "n", BEGINS, filled(BROKEN[number], ONE, U70))
      for number in (*range(11, 17), 30)],
    *[Case(f"BOOT's {name} uncovered, lower version", "n", BEGINS, filled(late, ONE, U70))
      for name, late in LATE_TYPES.items()],
    *[Case(f"BOOT's version uncovered, {name}, lower version", "n", BEGINS, filled(late, ONE, U70))
      for name, late in UNCOVERED_TOO.items()],
    Case("BOOT's custom tag behind the digest, lower version", "n", "BOOT 19", filled(CUSTOM_BEHIND, ONE, U70)),
    Case("BOOT's verdict 30, the same version", "n", BEGINS, filled(BROKEN[30], written(5), U70)),
    Case("BOOT's verdict 30, lower version, UPDATE's signature refused", "n", "REFUSE 30",
         filled(BROKEN[30], ONE, U70), BOOT_ONLY),
    Case("BOOT's verdict 17, lower version", "n", "REFUSE 17", filled(BROKEN[17], ONE, U70)),
    Case("BOOT's verdict 17, greater version", "n", BEGINS, filled(BROKEN[17], written(6), U70)),
    Case("BOOT empty", "n", BEGINS, filled(b"", ONE, U70)),
]
OFFERED = [
    *[Case(f"update refused with {number}", "n", f"BOOT {number}", filled(ONE, BROKEN[number], U70))
      for number in BROKEN],
    *[Case(f"update refused, {name} uncovered", "n", "BOOT 30", filled(ONE, late, U70))
      for name, late in LATE_TYPES.items()],
    Case("17 before 19", "n", "BOOT 17", filled(written(6), BROKEN[17], U70)),
    Case("30 before 19", "n", "BOOT 30", filled(written(6), BROKEN[30], U70)),
    Case("update refused with 17, BOOT with 11", "n", "REFUSE 11", filled(BROKEN[11], BROKEN[17], U70)),
    Case("update refused with 11, BOOT with 17", "n", "REFUSE 17", filled(BROKEN[17], BROKEN[11], U70)),
    Case("UPDATE empty", "n", "BOOT 11", filled(ONE, b"", U70)),
]
CASES = VERSIONS + GREATER + LOWER + ON_TRIAL + INSTALLED + OFFERED
