"""Why UPDATE was not taken, or what comes next, on boards of which a reader can tell it: in picture and in explain."""
from model.board import record
from model.flash import BOOT
from picture.explain import explained
from tests.picture.check import check
from tests.picture.ends import COMES_BACK
from tests.vectors.loader_case import B10, BOOT_ONLY, BOTH, NEITHER, U30, U70, UPDATE_ONLY, G, filled, sound
from tests.vectors.loader_images import BROKEN, ONE, TWO

TORN = ONE[:-1] + b"\x00"
NO, DIGEST, VERSION = "the signature checker says no (18)", "the digest differs (17)", "the version is not greater (19)"
UNCOVERED = "the digest doesn't cover version, timestamp or firmware type (30)"
# The flash, the checker's answers, and what is said. A swap exchanges the answers, so that the one for UPDATE goes on
# with its image.
BOARDS = [
    (filled(ONE, TWO, U70), BOTH, "boots version 2 on trial", COMES_BACK),
    (filled(ONE, TWO, U70), UPDATE_ONLY, "boots version 2 on trial", f"nothing to go back to in UPDATE: {NO}"),
    (filled(TORN, TWO, U70), BOTH, "boots version 2 on trial", f"nothing to go back to in UPDATE: {DIGEST}"),
    (filled(ONE, TWO, U70), BOOT_ONLY, "boots version 1", f"UPDATE passed over: {NO}"),
    (filled(TWO, ONE, U70), BOTH, "boots version 2", f"UPDATE passed over: {VERSION}"),
    (filled(TWO, ONE, U70, sound(BOOT, "00")), BOTH, "boots version 2 confirmed", f"UPDATE passed over: {VERSION}"),
    (filled(TWO, ONE, U30, sound(BOOT, "00")), BOTH, "boots version 2 confirmed"),
    (filled(TWO, ONE), BOTH, "boots version 2"),
    (filled(TWO, ONE, B10, U30), BOTH, "boots version 1 on trial", COMES_BACK),
    (filled(TWO, TORN, B10, U30), BOTH, "boots version 2 on trial", f"UPDATE passed over: {DIGEST}"),
    (filled(TWO, ONE, B10, U30), BOOT_ONLY, "boots version 2 on trial", f"UPDATE passed over: {NO}"),
    (filled(TORN, ONE, U70), BOTH, f"refused: BOOT: {DIGEST}", f"UPDATE passed over: {VERSION}"),
    (filled(ONE, TWO, U70), NEITHER, f"refused: BOOT: {NO}", f"UPDATE passed over: {NO}"),
    (filled(ONE, TWO, U70, (1530, b"\x3f")), BOTH, "refused: UPDATE: the flags are ill-formed (20)"),
    (filled(ONE, BROKEN[30], U70), BOTH, "boots version 1", f"UPDATE passed over: {UNCOVERED}"),
    (filled(BROKEN[30], ONE, U70), BOTH, "boots version 1 on trial", f"nothing to go back to in UPDATE: {UNCOVERED}"),
    (filled(BROKEN[30], TWO), BOTH, f"refused: BOOT: {UNCOVERED}"),
]


def check_reasons(path):
    for flash, answers, *said in BOARDS:
        data = record(G, answers) + flash
        findings, (lines, _) = check(path, data), explained(data, False)
        assert findings[:-4] == said, (findings, said)
        assert lines[-1][14:] == "; ".join(said), lines
