"""Which rows a picture folds, worked out from the flags and the steps' words alone: two or more sectors in a row
between two that are exchanged by the same steps, none of them cut or mended."""
from typing import NamedTuple

from model.flash import UPDATE
from model.refusals import Refused
from model.slots import UPDATING, flags, progress, sound_with
from tests.picture.drawn import Folded
from tests.picture.rows import mends, written

LEAST = 2


class Item(NamedTuple):
    """What is drawn: one row of a power-up, by its index in all rows, or a fold with the rows that it is for."""
    rows: range
    fold: Folded = None


def sector_under_exchange(g, flash):
    """By the flags; None outside a swap."""
    try:
        number = progress(g, flash) if sound_with(g, flash, UPDATE, UPDATING) else 3 * g.n
    except Refused:
        return None
    return number // 3 if number < 3 * g.n else None


def alike(parts):
    """Parts with the same words, of sectors one after the other: (sector, rows, words)."""
    runs = []
    for part in parts:
        before = runs[-1][-1] if runs else None
        if before and part[2] and part[2] == before[2] and part[0] == before[0] + 1:
            runs[-1].append(part)
        else:
            runs.append([part])
    return runs


def parts_of(expected, rows, mended):
    """The rows of a power-up by the sector under exchange; no words where they never fold."""
    g, found = expected.geometry, []
    for m in rows:
        before = expected.rows[m - 1].flash
        i, row = sector_under_exchange(g, before), expected.rows[m]
        if not found or found[-1][0] != i or i is None:
            found.append((i, [], []))
        found[-1][1].append(m)
        found[-1][2].append(written(g, row, before)[1].replace(f"sector {i}", "sector"))
    return [(i, its, [] if i is None or any(expected.rows[m].cut or m in mended for m in its) else words)
            for i, its, words in found]


def fold(expected, inner):
    """All its sectors are new before it and updated after it."""
    g, rows = expected.geometry, range(inner[0][1][0], inner[-1][1][-1] + 1)
    first, last = inner[0][0], inner[-1][0]
    before, after = (flags(g, expected.rows[m].flash)[first:last + 1] for m in (rows[0] - 1, rows[-1]))
    assert set(before) == {0xF} and set(after) == {0}, (before, after)
    numbers = [expected.rows[m].number for m in (rows[0], rows[-1])]
    return Item(rows, Folded(first, last, first - 1, last - first + 1, *numbers))


def folded(expected, rows, mended):
    items = []
    for run in alike(parts_of(expected, rows, mended)):
        inner = run[1:-1] if len(run) - 2 >= LEAST else []
        drawn = [run[0], run[-1]] if inner else run
        items += [Item(range(m, m + 1)) for _, its, _ in drawn for m in its]
        items += [fold(expected, inner)] if inner else []
    return sorted(items, key=lambda item: item.rows.start)


def check_cuts(expected, items):
    """The sector under exchange when the power was lost is in no fold of that power-up and of the next."""
    bounds = [*[before for before, _ in expected.breaks], len(expected.rows)]
    for k, row in enumerate(expected.rows):
        if row.cut:
            last = min(bound for bound in bounds if bound > k + 1) if k + 1 < len(expected.rows) else k
            first = max([bound for bound in bounds if bound <= k], default=1)
            i = sector_under_exchange(expected.geometry, expected.rows[k - 1].flash)
            for item in items:
                assert not (item.fold and first <= item.rows.start < last
                            and i in range(item.fold.first, item.fold.last + 1)), (k, item)


def items_of(expected, folds):
    """For each power-up what is drawn, the board as found first."""
    mended, bounds = mends(expected.rows), [1, *[before for before, _ in expected.breaks], len(expected.rows)]
    groups = [range(start, stop) for start, stop in zip(bounds, bounds[1:])]
    items = [folded(expected, rows, mended) if folds else [Item(range(m, m + 1)) for m in rows] for rows in groups]
    items[0].insert(0, Item(range(1)))
    check_cuts(expected, [item for group in items for item in group])
    assert [m for group in items for item in group for m in item.rows] == list(range(len(expected.rows))), items
    return items
