"""Where the columns of the SVG lie, for a number of sectors."""
from model.flash import BOOT, UPDATE
from picture.places import FLAG, SWAP

MARGIN, NUMBER, WORDS, TRAILER, GAP = 24, 26, 290, 88, 22
# The most and the least that a sector and a flag are wide, and what all of them may take.
SECTOR, ALL_SECTORS, FLAG_CELL, ALL_FLAGS, SWAP_CELL = (7, 44), 352, (6, 18), 144, 58


def share(least, most, room, n):
    return max(least, min(most, room // n))


class Columns:
    def __init__(self, n):
        self.n = n
        self.sector, self.flag = share(*SECTOR, ALL_SECTORS, n), share(*FLAG_CELL, ALL_FLAGS, n)
        self.number, self.words = MARGIN + NUMBER - 8, MARGIN + NUMBER
        slot = n * self.sector + 4 + TRAILER
        boot = self.words + WORDS
        update = boot + slot + GAP
        flags = update + slot + 10
        swap = flags + max(n * self.flag, 32) + GAP
        self.left = {BOOT: boot, UPDATE: update, FLAG: flags, SWAP: swap}
        self.right = swap + SWAP_CELL
        self.page = self.right + MARGIN

    def edges(self):
        """Of a line across the page."""
        return MARGIN - 8, self.right + 8

    def cell(self, area, i):
        """Where a cell begins and how wide it is. A slot's trailer is sector n."""
        left = self.left[area]
        if area == SWAP:
            return left, SWAP_CELL
        if area == FLAG:
            return left + i * self.flag, self.flag
        return (left + self.n * self.sector + 4, TRAILER) if i == self.n else (left + i * self.sector, self.sector)

    def middle(self, area, i):
        left, width = self.cell(area, i)
        return left + width / 2

    def bands(self):
        """The areas from left to right: where each begins and how wide it is."""
        ends = {BOOT: self.left[UPDATE] - GAP, UPDATE: self.left[SWAP] - GAP, SWAP: self.right}
        return [(self.left[area], ends[area] - self.left[area]) for area in (BOOT, UPDATE, SWAP)]
