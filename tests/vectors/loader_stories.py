"""Whole updates, step by step: document 01's example, the return after it, and updates with other geometries."""
from model.flash import UPDATE, Geometry
from tests.vectors.flash_case import GAPS, THREE, TURNED
from tests.vectors.flash_flags import LARGEST, flag_bytes, of_32
from tests.vectors.header_verdicts import PLAIN
from tests.vectors.loader_case import U70, Case, filled, sound, story
from tests.vectors.loader_images import ONE, TWO, written

Z512 = Geometry(z=512, n=1, boot=0, update=1024, swap=2048, length=2560)
Z4096 = Geometry(z=4096, n=1, boot=0, update=8192, swap=16384, length=20480)
# With G, from a SWAP that is all FF.
EXCHANGE = ("C 768 1536; B 1530 247; E 768; C 0 768; B 1530 243; E 0; C 1536 0; B 1530 240; E 1536; C 1024 1536; "
            "B 1530 112; E 1024; C 256 1024; B 1530 48; E 256; C 1536 256; B 1530 0")


def triggered(geometry, boot, update, *patches):
    return filled(boot, update, sound(UPDATE, "70", geometry), *patches, geometry=geometry)


def by_sector(version, *values):
    """An image whose firmware has a value of its own in each sector of 256 bytes."""
    return written(version, b"".join(bytes([value]) * 256 for value in values))


EXAMPLE = [
    Case("example, trigger", "t", "FINISHED", filled(ONE, TWO, U70)),
    Case("example, confirm", "c", "REFUSE 23"),
    *story("example", "N", f"{EXCHANGE}; B 763 16; M 764; LAST B 1531 48"),
]
# BOOT is on trial and UPDATE holds the old image, so a return is due at once; SWAP holds other bytes by now.
RETURN = [
    Case("after the example", "n", "E 1280"),
    Case("after the example, trigger", "t", "REFUSE 21"),
    Case("after the example, confirm", "c", "B 763 0"),
    *story("return", "N", f"E 1280; B 1531 112; M 1532; E 1536; {EXCHANGE}; LAST B 1531 48"),
    Case("after the return", "n", "E 1280"),
    Case("after the return, trigger", "t", "REFUSE 21"),
    *story("after the return, confirm", "C", "B 763 0; FINISHED"),
    Case("after the return, confirmed", "n", "BOOT 0"),
    *story("after the return, confirmed, trigger", "T", "E 1280; B 1531 112; M 1532; FINISHED"),
    Case("after the return, triggered, confirm", "c", "FINISHED"),
    Case("after the return, triggered", "n", "E 1536"),
]
OTHER_WAY_ROUND = [
    *story("areas turned, trigger", "T", "B 1019 112; M 1020; FINISHED", filled(ONE, TWO, geometry=TURNED),
           geometry=TURNED),
    *story("areas turned", "N", "C 256 0; B 1018 247; E 256; C 1024 256; B 1018 243; E 1024; C 0 1024; B 1018 240",
           geometry=TURNED),
    *story("areas turned, second sector", "N", "E 1280; C 0 1280; B 1018 0; B 1787 16; M 1788; LAST B 1019 48; E 768",
           triggered(TURNED, TWO[:256] + ONE[256:], ONE, (0, TWO[256:]), flag_bytes(TURNED, "30")), geometry=TURNED),
    Case("areas turned, confirm", "c", "B 1787 0", geometry=TURNED),
]
OLD_3, NEW_3 = by_sector(1, 0x11, 0x12), by_sector(2, 0x21, 0x22)
# Two sectors are exchanged already. The last high half, 5, isn't read, and it is kept.
THREE_SECTORS = [
    *story("n 3", "N",
           "C 1536 2048; B 2041 87; E 1536; C 512 1536; B 2041 83; E 512; C 2048 512; B 2041 80; B 1019 16; M 1020; "
           "LAST B 2043 48; E 1792",
           triggered(THREE, NEW_3[:512] + OLD_3[512:], OLD_3[:512] + NEW_3[512:], flag_bytes(THREE, "5F 00")),
           geometry=THREE),
    Case("n 3, flags 0F FF, same version", "n", "BOOT 19", triggered(THREE, ONE, ONE, flag_bytes(THREE, "0F FF")),
         geometry=THREE),
    Case("n 3, flags 0F FF, trigger", "t", "FINISHED", geometry=THREE),
    Case("n 3, flags F0 FF", "n", "REFUSE 20", triggered(THREE, ONE, TWO, flag_bytes(THREE, "F0 FF")), geometry=THREE),
    Case("n 3, flags F0 FF, trigger", "t", "REFUSE 22", geometry=THREE),
    Case("n 3, flags 70 00", "n", "B 1019 16", triggered(THREE, ONE, TWO, flag_bytes(THREE, "70 00")), geometry=THREE),
]
ONE_SECTOR = [
    *story("z 512, n 1", "N",
           "C 1024 2048; B 2042 247; E 1024; C 0 1024; B 2042 243; E 0; C 2048 0; B 2042 240; B 1019 16; M 1020; "
           "LAST B 2043 48; E 1536", triggered(Z512, ONE, TWO), geometry=Z512),
    *[Case(f"z 512, target {name}", "n", says, triggered(Z512, ONE, target, flag_bytes(Z512, "57")), geometry=Z512)
      for name, target, says in [("equal", ONE, "B 2042 83"), ("equal but for its last byte", ONE[:511], "E 1024"),
                                 ("FF but for its last byte", b"\xff" * 511 + b"\x11", "E 1024")]],
    *story("z 4096, n 1", "N",
           "C 8192 16384; B 16378 247; E 8192; C 0 8192; B 16378 243; E 0; C 16384 0; B 16378 240; B 8187 16; M 8188; "
           "LAST B 16379 48", triggered(Z4096, by_sector(1, *range(1, 16)), by_sector(2, *range(16, 31))),
           geometry=Z4096),
    # No firmware fits, so what is swapped in doesn't pass, nor does what was there.
    *story("z 256, n 1", "N",
           "E 1024; C 256 1024; B 1530 83; E 256; C 1792 256; B 1530 80; B 763 16; M 764; B 1531 48; REFUSE 12",
           triggered(GAPS, bytes(256), bytes(range(256)), (1792, PLAIN[:256]), flag_bytes(GAPS, "57")),
           geometry=GAPS),
]
# The update's last copy, and the return's first.
NEW = by_sector(2, *range(1, 64))
MOST_SECTORS = story(
    "n 64", "N",
    "C 33280 16128; B 33243 0; B 16635 16; M 16636; LAST B 33275 48; E 33024; B 33275 112; M 33276; E 33280; "
    "C 16640 33280; B 33274 247",
    triggered(LARGEST, NEW[:-256], ONE, (LARGEST.swap, NEW[-256:]), flag_bytes(LARGEST, of_32(31, "30"))),
    geometry=LARGEST)
CASES = EXAMPLE + RETURN + OTHER_WAY_ROUND + THREE_SECTORS + ONE_SECTOR + MOST_SECTORS
