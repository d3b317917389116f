"""Whether the lines between the rows say how a power-up ended and what a cut left."""
from itertools import accumulate

from tests.picture.rows import SLOTS, sector_name, trailer_text, written


def check_left(g, row, line, labels):
    """What a cut step left."""
    if row.step[0] in "BM":
        assert line == "not begun", line
        return
    name, left = line.split(" is left with: ")
    assert name == sector_name(g, row.places.start), line
    if name.endswith("trailer"):
        assert left == trailer_text(g, row.flash, SLOTS.index(name.split("'")[0]), False), line
    else:
        labels.claim(left, None if name == "SWAP" else int(name.split()[2]), row.flash[row.places])


def check_between(expected, items, between, labels):
    """items: of each power-up. labels are the SVG's: the lines use its names."""
    g, counts = expected.geometry, list(accumulate(len(group) for group in items))
    assert [count for count, _ in between] == counts[:-1], (between, counts)
    for (_, lines), (before, end) in zip(between, expected.breaks):
        row = expected.rows[before - 1]
        if end.line != "CUT":
            assert lines == [end.words(), *end.reasons(), "next start"], lines
            continue
        lost, left, again = lines
        words = written(g, row, expected.rows[before - 2].flash)[1]
        assert lost == f"power lost during: {words}" and again == "power up again", lines
        check_left(g, row, left, labels)
