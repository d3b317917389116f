"""Document 01's geometry and flash steps. A step is the letter and the numbers that the simulator prints."""
from dataclasses import dataclass
from itertools import combinations

from model.refusals import refuse

SECTOR_SIZES = (256, 512, 1024, 2048, 4096)
CLOSING = bytes.fromhex("42 4F 4F 54")
BOOT, UPDATE = range(2)
ERASE, COPY, BYTE, MARK = range(4)


@dataclass(frozen=True)
class Geometry:
    z: int
    n: int
    boot: int
    update: int
    swap: int
    length: int

    def areas(self):
        slot = (self.n + 1) * self.z
        return [range(self.boot, self.boot + slot), range(self.update, self.update + slot),
                range(self.swap, self.swap + self.z)]

    def sectors(self):
        """Where each sector of the three areas starts."""
        return [start for area in self.areas() for start in range(area.start, area.stop, self.z)]

    def trailer(self, slot):
        """The places of a slot's trailer sector."""
        return self.areas()[slot][-self.z:]


def check(geometry):
    refuse(geometry.z not in SECTOR_SIZES, 1)
    refuse(not 1 <= geometry.n <= 64, 2)
    areas = geometry.areas()
    refuse(any(area.start % geometry.z != 0 or area.stop > geometry.length for area in areas), 3)
    refuse(any(a.start < b.stop and b.start < a.stop for a, b in combinations(areas, 2)), 4)


def outside(geometry, flash):
    """The bytes outside the three areas."""
    kept, start = b"", 0
    for area in sorted(geometry.areas(), key=lambda area: area.start):
        kept, start = kept + flash[start:area.start], area.stop
    return kept + flash[start:]


def accepts(geometry, op, at, to, value):
    sectors, trailers = geometry.sectors(), [geometry.trailer(BOOT), geometry.trailer(UPDATE)]
    if op == ERASE:
        return at in sectors
    if op == COPY:
        return at in sectors and to in sectors and at != to
    if op == BYTE:
        return any(at in trailer for trailer in trailers) and value <= 255
    return op == MARK and any(at == trailer.stop - 4 for trailer in trailers)


def apply(geometry, flash, op, at, to, value):
    """The flash after a step, given by its numbers."""
    check(geometry)
    refuse(not accepts(geometry, op, at, to, value), 24)
    if op == ERASE:
        return flash[:at] + b"\xff" * geometry.z + flash[at + geometry.z:]
    place = to if op == COPY else at
    data = {COPY: flash[at:at + geometry.z], BYTE: bytes([value]), MARK: CLOSING}[op]
    new = bytes(old & byte for old, byte in zip(flash[place:], data))
    return flash[:place] + new + flash[place + len(data):]


def carried_out(geometry, flash, step):
    """The flash after a step."""
    letter, at, *other = step
    op = {"E": ERASE, "C": COPY, "B": BYTE, "M": MARK}[letter]
    return apply(geometry, flash, op, at, other[0] if op == COPY else 0, other[0] if op == BYTE else 0)
