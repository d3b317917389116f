"""Cases of UPDATE's flags: how far an exchange has come, and the Byte that takes it one further."""
from dataclasses import replace

from model.flash import Geometry
from tests.vectors.flash_case import GAPS, MOST, THREE, TURNED, Case, G, hexed

TOP = 2 ** 64
FOUR = Geometry(z=256, n=4, boot=0, update=1280, swap=2560, length=2816)
THIRTEEN = Geometry(z=256, n=13, boot=0, update=3584, swap=7168, length=8192)
LARGEST = Geometry(z=256, n=64, boot=0, update=16640, swap=33280, length=33536)
REFUSED = {1: replace(G, z=1), 2: replace(G, n=65), 3: replace(G, boot=TOP - 256), 4: replace(G, swap=512)}


def flag_bytes(geometry, text):
    """The bytes in the order in which they lie, the last of them at UPDATE's first two flags."""
    data, end = hexed(text), geometry.update + (geometry.n + 1) * geometry.z - 5
    return (end - len(data), data)


def progress(text, says, geometry=G, *patches, name=""):
    says = str(says) if says is not None else "REFUSE 20"
    return Case(f"n {geometry.n}, flags {text}{name}", "P", says, geometry, (flag_bytes(geometry, text), *patches))


def next_flag(text, number, says, geometry=G, name=""):
    return Case(f"n {geometry.n}, flags {text}, from {number}{name}", "F", says, geometry,
                (flag_bytes(geometry, text),), at=number)


# Document 01's bench cases, with the answers that it states.
BENCH = [progress("FF", 0), progress("00", 6), progress("F0", 3), progress("F7", 1), progress("3F", None),
         progress("F5", None)]
PAIRS = [
    progress("F3", 2),
    progress("70", 4),
    progress("30", 5),
    *[progress(text, None) for text in ("0F", "7F", "07", "77", "37", "03", "73", "33")],
    *[progress(text, None) for text in ("F1", "F2", "F4", "F8", "FB", "FE", "10", "40", "80", "E0")],
]
# The flags are read alone: not the byte before them, the state or the closing bytes.
ALONE = [
    progress("00 FF", 0, name=", 00 before them"),
    progress("5A F7", 1, name=", 5A before them"),
    progress("F0", 3, G, (1531, hexed("70 42 4F 4F 54")), name=", sound with 70"),
    progress("F0", 3, G, (1531, hexed("30 42 4F 4F 54")), name=", sound with 30"),
    progress("3F", None, G, (1531, hexed("70 42 4F 4F 54")), name=", sound with 70"),
    progress("00", 6, G, (1531, hexed("00 00 00 00 00")), name=", 00 behind them"),
    progress("F7", 1, G, (762, hexed("00 10 42 4F 4F 54")), name=", 00 in BOOT's place"),
    progress("F7", 1, TURNED, (1786, b"\x00"), name=", areas turned"),
]
ODD = [
    *[progress(text, 0, GAPS) for text in ("FF", "0F", "3F", "5F")],
    *[progress(text, 1, GAPS) for text in ("F7", "07", "57")],
    *[progress(text, 3, GAPS) for text in ("F0", "70", "A0")],
    *[progress(text, None, GAPS) for text in ("F5", "FE", "01")],
    *[progress(text, 6, THREE) for text in ("FF 00", "0F 00", "7F 00", "5F 00")],
    *[progress(text, 9, THREE) for text in ("F0 00", "00 00", "90 00")],
    progress("07 00", 7, THREE),
    progress("53 00", 8, THREE),
    progress("0F F3", 2, THREE),
    progress("0F 70", 4, THREE),
    progress("F7 F0", None, THREE),
    progress("F0 FF", None, THREE),
    progress("FF 0F", None, THREE),
]
LONG = [
    progress("FF FF", 0, FOUR),
    progress("FF F7", 1, FOUR),
    progress("F7 FF", None, FOUR),
    progress("FF 00", 6, FOUR),
    progress("00 FF", None, FOUR),
    progress("F3 00", 8, FOUR),
    progress("30 00", 11, FOUR),
    progress("00 00", 12, FOUR),
    progress("F3 30", None, FOUR),
    progress("7F 00", None, FOUR),
    progress("0F 00", None, FOUR),
    progress("FF FF FF FF FF FF FF", 0, MOST),
    progress("FF FF FF F7 00 00 00", 19, MOST),
    progress("FF FF FF 70 00 00 00", 22, MOST),
    progress("30 00 00 00 00 00 00", 41, MOST),
    progress("00 00 00 00 00 00 00", 42, MOST),
    progress("0F 00 00 00 00 00 00", None, MOST),
    progress("7F FF FF FF FF FF FF", None, MOST),
    progress("FF FF FF FF FF FF 3F", None, MOST),
    progress("4F 00 00 00 00 00 00", 36, THIRTEEN),
    progress("03 00 00 00 00 00 00", 38, THIRTEEN),
    progress("80 00 00 00 00 00 00", 39, THIRTEEN),
]


def of_32(finished, *current):
    """32 flag bytes: new ones, the current one, and so many finished ones behind it."""
    return " ".join(["FF"] * (32 - len(current) - finished) + list(current) + ["00"] * finished)


SIXTY_FOUR = [
    progress(of_32(0), 0, LARGEST),
    progress(of_32(0, "F7"), 1, LARGEST),
    progress(of_32(15, "70"), 94, LARGEST),
    progress(of_32(16), 96, LARGEST),
    progress(of_32(31, "F7"), 187, LARGEST),
    progress(of_32(31, "30"), 191, LARGEST),
    progress(of_32(32), 192, LARGEST),
    progress(of_32(31, "3F"), None, LARGEST),
    progress(of_32(31, "F5"), None, LARGEST),
    next_flag(of_32(31, "F0"), 189, "B 33243 112", LARGEST),
    next_flag(of_32(31, "30"), 191, "B 33243 0", LARGEST),
    next_flag(of_32(32), 192, "FINISHED", LARGEST),
]
# The six bytes of document 01's own exchange, and others: the other half stays, whatever it is.
NEXT = [
    next_flag("FF", 0, "B 1530 247"),
    next_flag("F7", 1, "B 1530 243"),
    next_flag("F3", 2, "B 1530 240"),
    next_flag("F0", 3, "B 1530 112"),
    next_flag("70", 4, "B 1530 48"),
    next_flag("30", 5, "B 1530 0"),
    *[next_flag("00", number, "FINISHED") for number in (6, 7, 256, 2 ** 32 + 1, 2 ** 63, TOP - 1)],
    next_flag("FF", 6, "FINISHED"),
    next_flag("5A", 0, "B 1530 87"),
    next_flag("5A", 1, "B 1530 83"),
    next_flag("5A", 2, "B 1530 80"),
    next_flag("5A", 3, "B 1530 122"),
    next_flag("5A", 4, "B 1530 58"),
    next_flag("5A", 5, "B 1530 10"),
    next_flag("00", 0, "B 1530 7"),
    next_flag("00", 3, "B 1530 112"),
    next_flag("2F", 0, "B 1530 39", GAPS),
    next_flag("93", 2, "B 1530 144", GAPS),
    next_flag("00", 3, "FINISHED", GAPS),
    next_flag("2F 70", 4, "B 2042 48", THREE),
    next_flag("2F 00", 6, "B 2041 39", THREE),
    next_flag("20 00", 9, "FINISHED", THREE),
    next_flag("FF 00", 6, "B 2553 247", FOUR),
    next_flag("F0 00", 9, "B 2553 112", FOUR),
    next_flag("30 00", 11, "B 2553 0", FOUR),
    next_flag("00 00", 12, "FINISHED", FOUR),
    next_flag("FF FF FF F7 00 00 00", 19, "B 8183 243", MOST),
    next_flag("30 00 00 00 00 00 00", 41, "B 8180 0", MOST),
    next_flag("00 00 00 00 00 00 00", 42, "FINISHED", MOST),
    next_flag("F3", 2, "B 1018 240", TURNED, ", areas turned"),
]
REFUSALS = [case for number, where in REFUSED.items() for case in (
    Case(f"progress, geometry {number}", "P", f"REFUSE {number}", where, ((1530, b"\x3f"),)),
    Case(f"next flag, geometry {number}", "F", f"REFUSE {number}", where, ((1530, b"\xff"),)),
    Case(f"next flag past the last, geometry {number}", "F", f"REFUSE {number}", where, at=TOP - 1))]
CASES = BENCH + PAIRS + ALONE + ODD + LONG + SIXTY_FOUR + NEXT + REFUSALS
