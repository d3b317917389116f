"""Cases of flags in an exchange: ill-formed ones, and each stage's step, for which nothing is verified."""
from model.flash import BOOT
from tests.vectors.loader_case import B10, BOOT_ONLY, NEITHER, U70, Case, filled, flag_byte, sound, story
from tests.vectors.loader_images import ONE, TWO, written

# In mid-swap: flag byte, source, target, and the Byte with the next flag and the other half as it is.
STAGES = [
    ("F7", 0, 768, "B 1530 243"),
    ("F3", 1536, 0, "B 1530 240"),
    ("F0", 1024, 1536, "B 1530 112"),
    ("70", 256, 1024, "B 1530 48"),
    ("30", 1536, 256, "B 1530 0"),
]


def of(at, value):
    """A sector of one value."""
    return at, bytes([value]) * 256


def mid_swap(text, *patches):
    """Neither slot holds an image, and each sector has a value of its own."""
    sectors = of(0, 0x11), of(256, 0x22), of(768, 0x33), of(1024, 0x44), of(1536, 0x55)
    return filled(b"", b"", *sectors, U70, flag_byte(text), *patches)


def step(text, name, says, *patches):
    return Case(f"flags {text}, {name}", "n", says, mid_swap(text, *patches), NEITHER)


def each_target(text, source, target, next_flag):
    same = of(source, 0x66), of(target, 0x66)
    return [
        step(text, "target of other bytes", f"E {target}"),
        step(text, "target's last byte differs", f"E {target}", *same, (target + 255, b"\x64")),
        step(text, "target all FF", f"C {source} {target}", of(target, 0xFF)),
        step(text, "target equal", next_flag, *same),
    ]


def bench(text, says):
    """Document 01's example before its first step, but with these flags."""
    return Case(f"flag byte {text}", "n", says, filled(ONE, TWO, U70, flag_byte(text)))


def ill_formed(text):
    """The images pass, and the version is greater."""
    return [bench(text, "REFUSE 20"), Case(f"flag byte {text}, trigger", "t", "REFUSE 22"),
            Case(f"flag byte {text}, confirm", "c", "REFUSE 22")]


BENCH = [
    bench("FF", "C 768 1536"),
    bench("00", "B 763 16"),
    bench("F0", "C 1024 1536"),
    bench("F7", "E 768"),
    Case("flag byte F7, both signatures refused", "n", "E 768", answers=NEITHER),
    *ill_formed("3F"),
    *ill_formed("F5"),
]
ILL_FORMED = [
    *[case for text in ("0F", "77", "F1", "10") for case in ill_formed(text)[:1]],
    Case("flag byte 3F, BOOT on trial", "n", "REFUSE 20", filled(ONE, TWO, B10, U70, flag_byte("3F"))),
    Case("flag byte 3F, both signatures refused", "n", "REFUSE 20", answers=NEITHER),
    Case("flag byte 3F, no images", "n", "REFUSE 20", mid_swap("3F")),
]
# The first sector's first stage comes after decision 3, so both slots hold images.
FIRST = [
    Case("all new, SWAP of other bytes", "n", "E 1536", filled(ONE, TWO, U70, of(1536, 0x33))),
    Case("all new, SWAP's last byte not FF", "n", "E 1536", filled(ONE, TWO, U70, (1791, b"\xfe"))),
    Case("all new, SWAP equal", "n", "B 1530 247", filled(ONE, TWO, U70, (1536, TWO[:256]))),
    Case("all new, SWAP equal, signature refused", "n", "BOOT 18", answers=BOOT_ONLY),
    Case("all new, SWAP's last byte differs", "n", "E 1536", filled(ONE, TWO, U70, (1536, TWO[:255] + b"\xfe"))),
    Case("all new, 00 before the flags", "n", "C 768 1536", filled(ONE, TWO, U70, (1280, bytes(250)))),
]
TARGETS = [
    step("F7", "source and target all FF", "B 1530 243", of(0, 0xFF), of(768, 0xFF)),
    step("30", "source and target all FF", "B 1530 0", of(256, 0xFF), of(1536, 0xFF)),
    step("F7", "target's first byte differs", "E 768", of(768, 0x11), (768, b"\x10")),
    step("F7", "target FF but for its first byte", "E 768", of(768, 0xFF), (768, b"\x11")),
    step("F7", "target FF but for its last byte", "E 768", of(768, 0xFF), (1023, b"\x11")),
    step("F7", "target's second half FF", "E 768", (768, b"\x11" * 128 + b"\xff" * 128)),
    step("F7", "target has all bits of its source", "E 768", of(0, 0x01)),
    step("F7", "source all FF", "E 768", of(0, 0xFF)),
    step("70", "first sector's target torn", "B 1530 48", of(1024, 0x22), of(768, 0x99)),
]
# Nothing but UPDATE's flags says how far an exchange has come.
STATES = [
    step("F7", "BOOT on trial", "E 768", B10),
    step("F7", "BOOT confirmed", "E 768", sound(BOOT, "00")),
    Case("trigger in mid-swap", "t", "REFUSE 22"),
    Case("confirm in mid-swap", "c", "REFUSE 22"),
]
# Cuts that left a sector torn: it is erased and copied again, and only then its flag is written.
CUTS = [
    *story("SWAP torn", "N", "E 1536; C 768 1536; B 1530 247", filled(ONE, TWO, U70, (1536, TWO[:100]))),
    *story("UPDATE torn", "N", "E 768; C 0 768; B 1530 243",
           filled(ONE, ONE[:200] + bytes(56) + TWO[256:], U70, (1536, TWO[:256]), flag_byte("F7"))),
    *story("BOOT torn", "N", "E 0; C 1536 0; B 1530 240",
           filled(TWO[:80] + ONE[80:], ONE[:256] + TWO[256:], U70, (1536, TWO[:256]), flag_byte("F3"))),
    *story("BOOT's trailer torn", "N", "E 512; B 763 16; M 764; LAST B 1531 48",
           filled(TWO, ONE, U70, flag_byte("00"), (600, bytes(167)))),
]
BLANK = written(2, b"\xff" * 256)
# The second sector of both images the same, or all FF in one.
SAME = [
    *story("same second sector", "N", "C 1024 1536; B 1530 112; B 1530 48; B 1530 0; B 763 16",
           filled(written(3), ONE, U70, flag_byte("F0"))),
    *story("second sector all FF", "N", "B 1530 112; C 256 1024; B 1530 48; E 256; B 1530 0; B 763 16",
           filled(BLANK[:256] + ONE[256:], ONE[:256] + BLANK[256:], U70, flag_byte("F0"))),
]
EACH = [case for stage in STAGES for case in each_target(*stage)]
CASES = BENCH + ILL_FORMED + FIRST + EACH + TARGETS + STATES + CUTS + SAME
