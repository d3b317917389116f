"""Cases of a slot's trailer, sound with a state or renewed to one, and of its image."""
from dataclasses import replace

from model.flash import BOOT, UPDATE, Geometry
from tests.vectors.flash_case import GAPS, MOST, THREE, TURNED, Case, G, digest, hexed, laid_over

SLOTS = {BOOT: "BOOT", UPDATE: "UPDATE"}
# In G, a state byte and what should close the trailer behind it.
B10, U70 = (763, hexed("10 42 4F 4F 54")), (1531, hexed("70 42 4F 4F 54"))
EMPTY = f"0 {digest(b'')}"
REFUSED = {1: replace(G, z=255), 2: replace(G, n=0), 3: replace(G, length=1791), 4: replace(G, update=512)}


def renew(name, slot, state, says, *patches, geometry=G):
    return Case(f"renew {SLOTS[slot]} to {state:02X}, {name}", "R", says, geometry, patches, slot, state)


def sound(name, slot, state, says, *patches, geometry=G):
    return Case(f"{SLOTS[slot]} sound with {state:02X}, {name}", "T", says, geometry, patches, slot, state)


def image(name, slot, patches, length, contents, geometry=G):
    """The image is `length` bytes of FF with these contents."""
    expected = laid_over(b"\xff" * length, contents)
    return Case(f"image of {SLOTS[slot]}, {name}", "I", f"{length} {digest(expected)}", geometry, patches, slot)


def states():
    """The four outcomes, for each slot and several states."""
    cases = []
    for slot, start, at in (BOOT, 512, 763), (UPDATE, 1280, 1531):
        for state in (0x00, 0x10, 0x70):
            other = bytes([state ^ 0x40])
            cases += [
                renew("all FF", slot, state, f"B {at} {state}"),
                renew("state alone", slot, state, f"M {at + 1}", (at, bytes([state]))),
                renew("sound", slot, state, "FINISHED", (at, bytes([state]) + hexed("42 4F 4F 54"))),
                renew("other state alone", slot, state, f"E {start}", (at, other)),
                renew("sound with another", slot, state, f"E {start}", (at, other + hexed("42 4F 4F 54"))),
            ]
    return cases


def closing_bytes():
    """Near misses of the four closing bytes: not sound, and not FF either."""
    cases = []
    for text in ("43 4F 4F 54", "42 4E 4F 54", "42 4F 4D 54", "42 4F 4F 55", "FF 4F 4F 54", "42 4F 4F FF",
                 "00 00 00 00"):
        boot, update = (763, b"\x10" + hexed(text)), (1531, b"\x70" + hexed(text))
        cases += [renew(f"closed by {text}", BOOT, 0x10, "E 512", boot),
                  renew(f"closed by {text}", UPDATE, 0x70, "E 1280", update),
                  sound(f"closed by {text}", BOOT, 0x10, "NO", boot)]
    return cases


def one_byte():
    """A byte that is not FF in a trailer that would be all FF, or have its state alone; or just outside of it."""
    cases = []
    for slot, start, at, state in (BOOT, 512, 763, 0x10), (UPDATE, 1280, 1531, 0x70):
        for place in (start, at - 1, at + 1, at + 4):
            spot = (place, b"\x7f")
            cases += [renew(f"7F at {place}", slot, state, f"E {start}", spot),
                      renew(f"7F at {place} and state", slot, state, f"E {start}", spot, (at, bytes([state])))]
        outside = (start - 1, b"\x00"), (at + 5, b"\x00")
        cases += [renew("00 beside it", slot, state, f"B {at} {state}", *outside),
                  renew("00 beside it and state", slot, state, f"M {at + 1}", *outside, (at, bytes([state])))]
    return cases


RENEWALS = [
    *[renew(f"flag byte {flags:02X}", UPDATE, 0x70, "E 1280", U70, (1530, bytes([flags])))
      for flags in (0xF7, 0x7F, 0xF3, 0x3F, 0xF0, 0x0F, 0x00, 0xFE, 0xEF, 0x77)],
    renew("byte before the flags", UPDATE, 0x70, "FINISHED", U70, (1529, b"\x00")),
    renew("first byte 00, sound", UPDATE, 0x70, "FINISHED", U70, (1280, b"\x00")),
    renew("00 where UPDATE has flags", BOOT, 0x10, "FINISHED", B10, (762, b"\x00")),
    renew("UPDATE's flags 00", BOOT, 0x10, "FINISHED", B10, (1530, b"\x00")),
    renew("first byte 00, sound", BOOT, 0x10, "FINISHED", B10, (512, b"\x00")),
    renew("closed without a state", BOOT, 0x10, "E 512", (764, hexed("42 4F 4F 54"))),
    renew("closed without a state", UPDATE, 0x70, "E 1280", (1532, hexed("42 4F 4F 54"))),
    renew("other slot sound", BOOT, 0x70, "B 763 112", U70),
    renew("other slot sound", UPDATE, 0x10, "B 1531 16", B10),
    renew("all FF", BOOT, 0xFF, "B 763 255"),
    renew("closed without a state", BOOT, 0xFF, "FINISHED", (764, hexed("42 4F 4F 54"))),
    renew("last high half 0 of one sector", UPDATE, 0x70, "FINISHED", U70, (1530, b"\x0f"), geometry=GAPS),
    renew("last low half 7 of one sector", UPDATE, 0x70, "E 1280", U70, (1530, b"\xf7"), geometry=GAPS),
    renew("last high half 0 and state", UPDATE, 0x70, "E 1280", (1530, hexed("0F 70")), geometry=GAPS),
    renew("last high half 0 of three", UPDATE, 0x70, "FINISHED", (2041, b"\x0f"), (2043, U70[1]), geometry=THREE),
    renew("last low half 7 of three", UPDATE, 0x70, "E 1792", (2041, b"\xf7"), (2043, U70[1]), geometry=THREE),
    renew("last flag of 14", UPDATE, 0x70, "E 7936", (8180, b"\x7f"), (8187, U70[1]), geometry=MOST),
    renew("areas turned", BOOT, 0x10, "B 1787 16", (1531, b"\x00"), geometry=TURNED),
    renew("areas turned", UPDATE, 0x70, "M 1020", (1019, b"\x70"), geometry=TURNED),
    renew("z 512", UPDATE, 0x70, "M 2044", (2043, b"\x70"), geometry=Geometry(512, 1, 0, 1024, 2048, 2560)),
    renew("z 512, a byte in the first page", UPDATE, 0x70, "E 1536", (1536, b"\xfe"), (2043, b"\x70"),
          geometry=Geometry(512, 1, 0, 1024, 2048, 2560)),
    *[renew(f"geometry {number}", slot, 0x70, f"REFUSE {number}", geometry=where)
      for number, where in REFUSED.items() for slot in SLOTS],
]
SOUND = [
    sound("state and closing bytes", BOOT, 0x10, "YES", B10),
    sound("state and closing bytes", UPDATE, 0x70, "YES", U70),
    sound("closing bytes alone", BOOT, 0xFF, "YES", (764, hexed("42 4F 4F 54"))),
    sound("nothing", BOOT, 0xFF, "NO"),
    sound("state alone", UPDATE, 0x70, "NO", (1531, b"\x70")),
    sound("another state", BOOT, 0x00, "NO", B10),
    sound("a state with fewer bits", UPDATE, 0x30, "NO", U70),
    sound("a state with more bits", UPDATE, 0x70, "NO", (1531, hexed("30 42 4F 4F 54"))),
    sound("the other slot is", BOOT, 0x70, "NO", U70),
    sound("the other slot is", UPDATE, 0x10, "NO", B10),
    sound("any other byte", UPDATE, 0x70, "YES", U70, (1280, b"\x00"), (1530, b"\x5a")),
    sound("one byte early", BOOT, 0x10, "NO", (762, B10[1])),
    sound("one byte late", BOOT, 0x10, "NO", (764, B10[1][:4])),
    sound("areas turned", BOOT, 0x10, "YES", (1787, B10[1]), geometry=TURNED),
    sound("areas turned", UPDATE, 0x10, "YES", (1019, B10[1]), geometry=TURNED),
    *[sound(f"geometry {number}", slot, state, "NO", B10, U70, geometry=where)
      for number, where in REFUSED.items() for slot, state in ((BOOT, 0x10), (UPDATE, 0x70))],
]
ENDS = ((0, hexed("12 34")), (510, hexed("56 78 9A")), (767, hexed("BC DE F0")), (1278, hexed("11 22 33")))
IMAGES = [
    image("G", BOOT, ENDS, 512, ((0, hexed("12 34")), (510, hexed("56 78")))),
    image("G", UPDATE, ENDS, 512, ((0, hexed("DE F0")), (510, hexed("11 22")))),
    image("all FF", BOOT, (), 512, ()),
    image("one sector", UPDATE, ((1023, hexed("01 02")), (1279, hexed("03 04"))), 256, ((0, b"\x02"), (255, b"\x03")),
          GAPS),
    image("areas turned", BOOT, ENDS, 512, ((254, hexed("11 22 33")),), TURNED),
    image("areas turned", UPDATE, ENDS, 512, ((254, hexed("56 78 9A")), (511, b"\xbc")), TURNED),
    image("14 sectors", UPDATE, ((4351, hexed("01 02")), (7935, hexed("03 04"))), 3584, ((0, b"\x02"), (3583, b"\x03")),
          MOST),
    *[Case(f"image of {SLOTS[slot]}, geometry {number}", "I", EMPTY, where, ENDS, slot)
      for number, where in REFUSED.items() for slot in SLOTS],
]
CASES = states() + closing_bytes() + one_byte() + RENEWALS + SOUND + IMAGES
