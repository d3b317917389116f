"""Cases of carrying out a step. Each states the number and the bytes that differ afterwards."""
from dataclasses import replace

from model.flash import BYTE, COPY, ERASE, MARK, Geometry
from tests.vectors.flash_case import GAPS, MOST, TURNED, Case, G, digest, hexed, laid_over

TOP = 2 ** 64
LARGE = Geometry(z=1024, n=1, boot=0, update=2048, swap=4096, length=5120)


def edges(flash_length):
    """Sector k of 256 bytes starts with A0 + k, B0 + k and ends with C0 + k, D0 + k; the rest is FF."""
    last = flash_length // 256
    borders = [(256 * k - 2, bytes([0xBF + k, 0xCF + k, 0xA0 + k, 0xB0 + k])) for k in range(1, last)]
    return ((0, b"\xa0\xb0"), *borders, (256 * last - 2, bytes([0xBF + last, 0xCF + last])))


def step(name, number, op, at, *changes, to=0, value=0, patches=(), geometry=G):
    case = Case(name, "S", "", geometry, patches, op, value, at, to)
    case.says = f"{number} {digest(laid_over(case.flash(), changes))}"
    return case


def erase(name, at, geometry=G, patches=None):
    patches = edges(geometry.length) if patches is None else patches
    return step(f"erase {at}{name}", 0, ERASE, at, (at, b"\xff" * geometry.z), geometry=geometry, patches=patches)


def copy(i, j):
    """Sector i of G's flash onto sector j, by the numbers of edges: A0 + i AND A0 + j is A0 + (i AND j)."""
    both, place = i & j, 256 * j
    return step(f"copy {256 * i} {place}", 0, COPY, 256 * i, (place, bytes([0xA0 + both, 0xB0 + both])),
                (place + 254, bytes([0xC0 + both, 0xD0 + both])), to=place, patches=edges(1792))


def byte(at, old, value, new, geometry=G, name=""):
    return step(f"byte {value:02X} at {at}, which holds {old:02X}{name}", 0, BYTE, at, (at, bytes([new])), value=value,
                patches=((at, bytes([old])),), geometry=geometry)


def mark(name, at, new, *patches):
    return step(f"mark at {at}{name}", 0, MARK, at, (at, hexed(new)), patches=patches)


def refuse(name, op, at, geometry=G, to=0):
    """A flash in which the step would show, were it carried out: a Byte and a Mark do so in FF."""
    shown = ((at, b"\x00"),) if op in (ERASE, COPY) and at < geometry.length else ()
    return step(name, 24, op, at, to=to, patches=shown, geometry=geometry)


def refused_geometry(number, name, **numbers):
    """The geometry's number comes first, whether its step is otherwise accepted or not."""
    where = replace(G, **numbers)
    return [step(f"{name}, {what}", number, op, at, geometry=where, patches=((512, b"\xa5"),), to=to)
            for what, op, at, to in [("erase", ERASE, 512, 0), ("copy", COPY, 512, 1024), ("byte", BYTE, 763, 0),
                                     ("mark", MARK, 764, 0), ("no step", ERASE, 1, 0)]]


ERASES = [
    *[erase("", at) for at in (0, 256, 512, 768, 1024, 1280, 1536)],
    *[erase(" between gaps", at, GAPS) for at in (256, 512, 1024, 1280, 1792)],
    *[erase(", areas turned", at, TURNED) for at in (0, 256, 768, 1536)],
    erase(", 1024 bytes", 2048, LARGE, tuple((at, bytes(2)) for at in range(2047, 3072, 256))),
    erase(", every byte", 3584, MOST, ((3583, bytes(258)),)),
    erase(", trailer behind 14 sectors", 3840, MOST, ((3839, bytes(2)), (4095, bytes(2)))),
    erase(", FF already", 1536, patches=((1535, b"\x00"),)),
    *[refuse(f"no erase at {at}", ERASE, at) for at in (1, 255, 257, 511, 513, 769, 1535, 1537, 1791, 1792, 2048)],
    *[refuse(f"no erase at {at}", ERASE, at) for at in (TOP - 1, TOP - 256, 2 ** 32, 2 ** 63)],
    *[refuse(f"no erase at {at} between gaps", ERASE, at, GAPS) for at in (0, 768, 1536, 2048, 2304)],
    refuse("no erase at 1792, areas turned", ERASE, 1792, TURNED),
    *[refuse(f"no erase at {at} with z 1024", ERASE, at, LARGE) for at in (256, 512)],
]
PAGES = ((2047, b"\x00"), (2048, hexed("12")), (2303, hexed("34 56")), (2559, hexed("78 9A")), (2815, hexed("BC DE")),
         (3071, hexed("F0 00")))
COPIES = [
    *[copy(i, j) for i, j in [(3, 6), (0, 3), (6, 0), (4, 6), (1, 4), (6, 1), (2, 5), (5, 2), (6, 5)]],
    step("copy onto FF", 0, COPY, 768, (1536, hexed("12 34")), (1790, hexed("56 78")), to=1536,
         patches=((767, b"\x00"), (768, hexed("12 34")), (1022, hexed("56 78 00")))),
    step("copy sets no bit", 0, COPY, 768, (1536, hexed("00 04 30 50 00 FF")), to=1536,
         patches=((768, hexed("FF 34 3C 5A 00 FF")), (1536, hexed("00 0F F0 D0 FF FF")))),
    step("copy of FF", 0, COPY, 0, to=1536, patches=((1535, hexed("00 5A A5")), (1791, b"\x00"))),
    step("copy of 1024 bytes", 0, COPY, 2048, (4096, hexed("12")), (4351, hexed("34 56")), (4607, hexed("78 9A")),
         (4863, hexed("BC DE")), (5119, hexed("F0")), to=4096, geometry=LARGE, patches=PAGES),
    step("copy of 1024 bytes between areas", 0, COPY, 4096, (1024, hexed("12")), (2047, hexed("34")), to=1024,
         geometry=LARGE, patches=((4096, hexed("12")), (5119, hexed("34")))),
    *[refuse(f"no copy of {at} onto itself", COPY, at, to=at) for at in (0, 512, 1280, 1536)],
    *[refuse(f"no copy of {at}", COPY, at, to=1536) for at in (1, 255, 1792, 769, TOP - 256, TOP - 1)],
    *[refuse(f"no copy onto {to}", COPY, 768, to=to) for to in (1, 255, 1792, 1537, TOP - 256, TOP - 1)],
    *[refuse(f"no copy of {at} between gaps", COPY, at, GAPS, 1792) for at in (0, 768, 1536, 2048)],
    *[refuse(f"no copy onto {to} between gaps", COPY, 1024, GAPS, to) for to in (0, 768, 1536, 2048)],
]
BYTES = [
    *[byte(at, 0xA5, 0x3C, 0x24) for at in (512, 767, 1280, 1530, 1535)],
    byte(763, 0xFF, 0x10, 0x10),
    byte(1531, 0x70, 0x30, 0x30),
    byte(1531, 0x30, 0x70, 0x30),
    byte(1531, 0x0F, 0xF0, 0x00),
    byte(1531, 0xC3, 0xFF, 0xC3),
    byte(1531, 0xC3, 0x00, 0x00),
    byte(1531, 0x00, 0xFF, 0x00),
    byte(1535, 0xFF, 0x0F, 0x0F, GAPS, " between gaps"),
    byte(768, 0xFF, 0x12, 0x12, TURNED, ", areas turned"),
    byte(1023, 0xFF, 0x12, 0x12, TURNED, ", areas turned"),
    *[refuse(f"no byte at {at}", BYTE, at) for at in (0, 511, 768, 1279, 1536, 1791, 1792, TOP - 1, 2 ** 32 + 512)],
    *[refuse(f"no byte at {at} between gaps", BYTE, at, GAPS) for at in (511, 768, 1279, 1536, 1792, 2047)],
    *[refuse(f"no byte at {at}, areas turned", BYTE, at, TURNED) for at in (255, 767, 1024, 1535, 1792)],
]
MARKS = [
    mark("", 764, "42 4F 4F 54"),
    mark("", 1532, "42 4F 4F 54"),
    mark(" behind a state", 1532, "42 4F 4F 54", (1531, b"\x70")),
    mark(" over itself", 764, "42 4F 4F 54", (764, hexed("42 4F 4F 54"))),
    mark(" over other bytes", 764, "02 0F 40 04", (763, hexed("10 0F 0F F0 0F 00"))),
    mark(" over 00", 1532, "00 00 00 00", (1531, hexed("70 00 00 00 00 00"))),
    *[refuse(f"no mark at {at}", MARK, at)
      for at in (252, 508, 760, 763, 765, 768, 1276, 1528, 1531, 1533, 1536, 1788, 1792, TOP - 4, 2 ** 32 + 764)],
    *[refuse(f"no mark at {at} between gaps", MARK, at, GAPS) for at in (508, 1020, 1276, 1788, 2044)],
]
REFUSED = [
    *refused_geometry(1, "z 257", z=257),
    *refused_geometry(2, "n 65", n=65),
    *refused_geometry(3, "SWAP at 2^64 - 256", swap=TOP - 256),
    *refused_geometry(3, "flash cut by a byte", length=1791),
    *refused_geometry(4, "SWAP in UPDATE's trailer", swap=1280),
]
CASES = ERASES + COPIES + BYTES + MARKS + REFUSED
