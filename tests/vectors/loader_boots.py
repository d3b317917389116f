"""Cases where nothing is staged and BOOT isn't on trial: BOOT's verdict alone decides."""
from model.flash import BOOT
from tests.vectors.loader_case import BOOT_ONLY, NEITHER, UPDATE_ONLY, Case, filled, sound
from tests.vectors.loader_images import BROKEN, ONE, PADDED, TWO

CASES = [
    Case("nothing staged", "n", "BOOT 0", filled(ONE, TWO)),
    Case("nothing staged, UPDATE's signature refused", "n", "BOOT 0", answers=BOOT_ONLY),
    Case("nothing staged, BOOT's signature refused", "n", "REFUSE 18", answers=UPDATE_ONLY),
    Case("nothing staged, both signatures refused", "n", "REFUSE 18", answers=NEITHER),
    *[Case(f"nothing staged, BOOT's verdict {number}", "n", f"REFUSE {number}", filled(broken, TWO))
      for number, broken in BROKEN.items()],
    Case("17 before 18", "n", "REFUSE 17", filled(BROKEN[17], TWO), UPDATE_ONLY),
    Case("nothing staged, UPDATE empty", "n", "BOOT 0", filled(ONE, b"")),
    Case("confirmed, UPDATE's verdict 17", "n", "BOOT 0", filled(ONE, BROKEN[17], sound(BOOT, "00"))),
    Case("confirmed, BOOT's verdict 17", "n", "REFUSE 17", filled(BROKEN[17], ONE, sound(BOOT, "00"))),
    Case("BOOT padded, with a type FF34", "n", "BOOT 0", filled(PADDED, b"")),
    Case("all FF", "n", "REFUSE 11", filled(b"", b"")),
]
