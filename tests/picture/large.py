"""Boards of 64 sectors: what folds, what --rows and --all show, and that a picture of them can be looked at."""
import re
import xml.etree.ElementTree as ElementTree

from model.board import record
from model.flash import Geometry
from tests.picture.check import check, printed
from tests.picture.drawn import Folded
from tests.picture.explained import check_explained
from tests.picture.history import expected
from tests.picture.read_svg import read_svg
from tests.picture.read_text import read_text
from tests.vectors.flash_case import MOST
from tests.vectors.flash_flags import LARGEST
from tests.vectors.loader_case import BOTH
from tests.vectors.loader_images import written
from tests.vectors.loader_stories import triggered
from tests.vectors.runner_updates import two

HALF = Geometry(z=256, n=32, boot=0, update=8448, swap=16896, length=17152)
# The longest text and the highest SVG of one cut: about two screens.
LINES, HEIGHT = 95, 2000
# --rows of a board of 14 sectors, cut on step 60, and which these are: the power-up, the first step, the last one.
ROWS = {"28-40": [(1, 28, 40)], "0-2": [(1, 0, 2)], "60": [(1, 60, 60)], "2:65-": [(2, 65, 69)],
        "55-60,2:1-3": [(1, 55, 60), (2, 1, 3)], "1:59-,2:1": [(1, 59, 60), (2, 1, 1)]}


def shorter():
    """Images that do not fill their slots, and of which six sectors are the same: sectors of five kinds."""
    old, new = (b"".join(bytes([value]) * 256 for value in values) for values in (range(1, 16), range(101, 121)))
    return written(1, old), written(2, new[:5 * 256] + old[5 * 256:11 * 256] + new[11 * 256:])


def pictures(path, n, *words):
    """The text and the SVG, and what is read in them."""
    text = printed(path, *words)
    printed(path, *words, "--svg", path.with_suffix(".svg"))
    svg = path.with_suffix(".svg").read_text()
    return text, svg, (read_text(text, n), read_svg(ElementTree.fromstring(svg)))


def check_size(path, data):
    path.write_bytes(data)
    text, svg, read = pictures(path, 64, "--cut", 300)
    height = int(re.search(r'height="(\d+)"', svg)[1])
    assert text.count("\n") <= LINES and height <= HEIGHT, (text.count("\n"), height)
    assert max(map(len, text.splitlines())) <= 100 and "; 9x. nine in a row\n" in text.replace("\n     ", ""), text
    for picture in read:
        folds = [row for row in picture.rows if isinstance(row, Folded)]
        assert folds == [(2, 31, 1, 30, 18, 287), (35, 62, 34, 28, 16, 267)], folds


def check_some_rows(path, data):
    """Those that are asked for, as they are among all; nothing else changes."""
    path.write_bytes(data)
    *_, every = pictures(path, 14, "--cut", 60, "--rows", "all")
    for asked, parts in ROWS.items():
        *_, read = pictures(path, 14, "--cut", 60, "--rows", asked)
        for all_rows, picture in zip((every[0].rows, every[1].rows), read):
            wanted = [row for m, row in enumerate(all_rows) for power_up, first, last in parts
                      if power_up == (1 if m <= 60 else 2) and first <= row.number <= last]
            assert picture.rows == wanted and len(wanted) == sum(b - a + 1 for _, a, b in parts), asked
            assert len(picture.between) == 1 and len(picture.findings) == 6, asked


def check_large(path):
    even, mixed, small = (record(where, BOTH) + triggered(where, *images) for where, images in
                          ((LARGEST, two(64)), (HALF, shorter()), (MOST, two(14))))
    assert check(path, even, [100, 300])[0] == "boots version 2 on trial"
    check_size(path, even)
    assert check_explained(even, expected(even, (), 1)) == 34
    assert check(path, mixed, [20, 0, 30], boots=2)[0] == "boots version 1 on trial"
    assert sum(isinstance(row, Folded) for row in pictures(path, 32)[-1][0].rows) == 5
    assert check(path, small, [60], every=True) == check(path, small, [60])
    assert check_explained(small, expected(small, (), 1), every=True) == 132
    check_some_rows(path, small)
