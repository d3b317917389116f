"""Cases of the trailers that a decision goes by, in every kind: UPDATE not sound with 70, BOOT not sound with 10."""
from model.flash import BOOT, UPDATE
from tests.vectors.loader_case import B10, U30, U70, Case, filled, flag_byte, sound, state, story
from tests.vectors.loader_images import ONE, TWO

# The closing bytes with one of them changed.
NEAR = ("43 4F 4F 54", "42 4E 4F 54", "42 4F 4D 54", "42 4F 4F 55")
# The steps that renew UPDATE's trailer to 70, from the first one on.
MARKED = "M 1532; FINISHED"
BLANK = f"B 1531 112; {MARKED}"
ERASED = f"E 1280; {BLANK}"
UPDATES = [
    ("all FF", (), BLANK),
    ("state alone", (state(UPDATE, "70"),), MARKED),
    ("torn", ((1280, bytes(255)),), ERASED),
    ("spent", (U30, flag_byte("00")), ERASED),
    ("new", (sound(UPDATE, "FF"),), ERASED),
    *[(f"sound with {text}", (sound(UPDATE, text),), ERASED) for text in ("10", "00", "71")],
    ("spent, flags ill-formed", (U30, flag_byte("3F")), ERASED),
    ("sound with 00, flags F7", (sound(UPDATE, "00"), flag_byte("F7")), ERASED),
    *[(f"flags F7, closed by {text}", (state(UPDATE, f"70 {text}"), flag_byte("F7")), ERASED) for text in NEAR],
    ("state alone, first byte 00", (state(UPDATE, "70"), (1280, b"\x00")), ERASED),
]
# Each with the step that renews it to 10.
BOOTS = [
    ("all FF", (), "B 763 16"),
    ("state alone", (state(BOOT, "10"),), "M 764"),
    ("confirmed", (sound(BOOT, "00"),), "E 512"),
    ("new", (sound(BOOT, "FF"),), "E 512"),
    *[(f"sound with {text}", (sound(BOOT, text),), "E 512") for text in ("30", "70")],
]
UNSOUND_BOOTS = [
    *[(f"10 closed by {text}", (state(BOOT, f"10 {text}"),), "E 512") for text in NEAR],
    ("00 closed by 42 4F 4F 55", (state(BOOT, "00 42 4F 4F 55"),), "E 512"),
]


def on_trial(name, patches, renewed):
    """A return, though the version is lower. The flags aren't read."""
    return [Case(f"BOOT on trial, UPDATE {name}", "n", renewed.split("; ")[0], filled(TWO, ONE, B10, *patches))]


def nothing_staged(name, patches, renewed):
    """No update before it is triggered, though the version is greater."""
    return [Case(f"UPDATE {name}", "n", "BOOT 0", filled(ONE, TWO, *patches)),
            *story(f"UPDATE {name}, trigger", "T", renewed)]


def not_on_trial(name, patches, renewed):
    """The version rule applies, and only a confirmed BOOT has nothing to confirm."""
    confirmed = "FINISHED" if name == "confirmed" else "REFUSE 23"
    return [Case(f"BOOT {name}, lower version", "n", "BOOT 19", filled(TWO, ONE, U70, *patches)),
            Case(f"BOOT {name}, confirm", "c", confirmed)]


def no_return(name, patches, renewed):
    """UPDATE is spent, and nothing is considered."""
    return [Case(f"BOOT {name}, UPDATE spent", "n", "BOOT 0", filled(TWO, ONE, U30, flag_byte("00"), *patches)),
            Case(f"BOOT {name}, trigger", "t", "E 1280")]


def all_updated(name, patches, renewed):
    """BOOT's trailer is renewed before anything else."""
    return [Case(f"all updated, BOOT {name}", "n", renewed, filled(TWO, ONE, U70, flag_byte("00"), *patches))]


def each(kinds, cases):
    return [case for kind in kinds for case in cases(*kind)]


CASES = [
    *each(UPDATES, on_trial),
    *each(UPDATES, nothing_staged),
    *each(BOOTS + UNSOUND_BOOTS, not_on_trial),
    *each(BOOTS + UNSOUND_BOOTS, no_return),
    *each(BOOTS + UNSOUND_BOOTS[:1], all_updated),
]
