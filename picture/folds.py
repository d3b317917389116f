"""Folding: of sectors in a row that are exchanged alike the first and the last stay, the others become one fold."""
from itertools import groupby
from typing import NamedTuple

from model.flash import BOOT, UPDATE
from model.slots import flags
from picture.contents import content_of
from picture.images import area_sectors
from picture.places import SWAP, cell_read, cell_written

# A fold of fewer sectors saves little. So boards of up to four sectors have none.
LEAST = 2


class Fold(NamedTuple):
    """Rows that are not drawn. Each of these sectors is exchanged as the one before the first of them."""
    sectors: range
    rows: list

    def text(self):
        first, last = self.sectors[0], self.sectors[-1]
        steps = f"steps {self.rows[0].number} to {self.rows[-1].number}"
        return f"sectors {first} to {last} like sector {first - 1}: {len(self.sectors)} sectors, {steps}"


class Exchange(NamedTuple):
    """Rows in a row that are about one sector; None where they are about a trailer. Those of alike sectors have the
    same look; it is None where they never fold."""
    sector: int
    rows: list
    look: tuple

    def alike(self, before):
        return self.look is not None and self.look == before.look and self.sector == before.sector + 1


def sectors_of(g, rows):
    """The sector that each row is about. Erasing SWAP makes room for what follows."""
    found = [None]
    for row in reversed(rows):
        cells = [cell_written(g, row.step), cell_read(g, row.step) or (SWAP, 0)]
        places = [i for area, i in cells if area != SWAP]
        found.append(found[-1] if not places else places[0] if places[0] < g.n else None)
    return found[:0:-1]


def look(g, i, rows, images):
    """The steps as seen from sector i, and what it holds in BOOT, UPDATE and SWAP, and its flag, after each. None
    where a power loss is mended among them; the loss itself leaves another look."""
    def seen(cell):
        return cell if cell is None or cell[0] == SWAP else (cell[0], cell[1] - i)

    def held(flash):
        data = [area_sectors(g, flash, BOOT)[i], area_sectors(g, flash, UPDATE)[i], *area_sectors(g, flash, SWAP)]
        return [content_of(part, images, i)._replace(sector=0) for part in data]

    if i is None or any(row.mended for row in rows):
        return None
    return [(row.step[0], seen(cell_written(g, row.step)), seen(cell_read(g, row.step)), flags(g, row.flash)[i],
             held(row.flash)) for row in rows]


def exchanges(g, rows, images):
    pairs = groupby(zip(sectors_of(g, rows), rows), key=lambda pair: pair[0])
    found = [(i, [row for _, row in group]) for i, group in pairs]
    return [Exchange(i, its_rows, look(g, i, its_rows, images)) for i, its_rows in found]


def runs(found):
    """Sectors in a row that are alike."""
    together = []
    for exchange in found:
        if together and exchange.alike(together[-1][-1]):
            together[-1].append(exchange)
        else:
            together.append([exchange])
    return together


def folded(g, rows, images):
    drawn = []
    for first, *others in runs(exchanges(g, rows, images)):
        inner, last = others[:-1], others[-1:]
        if len(inner) >= LEAST:
            fold = Fold(range(inner[0].sector, inner[-1].sector + 1), [row for part in inner for row in part.rows])
            drawn += [*first.rows, fold, *last[0].rows]
        else:
            drawn += [row for part in (first, *others) for row in part.rows]
    return drawn
