"""One board drawn as text and as SVG by the picture's own main, read back, and held to what is expected."""
import argparse
import contextlib
import xml.etree.ElementTree as ElementTree
from pathlib import Path

from commands.inputs import contents
from commands.picture import options, shown
from model.flash import BOOT, UPDATE
from model.refusals import Refused
from model.simulator import simulate
from model.slots import UPDATING, image, progress, sound_with
from tests.picture.between import check_between
from tests.picture.closing import check_closing
from tests.picture.folds import items_of
from tests.picture.history import expected
from tests.picture.legend import check_legends
from tests.picture.read_svg import read_svg, svg_legend
from tests.picture.read_text import read_text
from tests.picture.rows import SLOTS, check_rows
from tests.picture.standalone import check_standalone
from tests.picture.visible import check_visible

ROOT = Path(__file__).resolve().parents[2]


def printed(*words):
    parser = argparse.ArgumentParser()
    options(parser)
    given = parser.parse_args([str(word) for word in words])
    return "\n".join(shown(given, contents(given.board))[0]) + "\n"


def swap_begun(g, flash):
    with contextlib.suppress(Refused):
        return sound_with(g, flash, UPDATE, UPDATING) and progress(g, flash) > 0
    return False


def check_names(picture, labels, images, versions, when, g):
    """Every sector of the two images is drawn by its name, but for those that are blank or the same in both."""
    sectors = [[data.ljust(g.n * g.z, b"\xff")[i * g.z:(i + 1) * g.z] for i in range(g.n)] for data in images]
    for slot in BOOT, UPDATE:
        name = picture.legend[f"version {versions[slot]} from {SLOTS[slot]}{when}"]
        own = [a for a, b in zip(sectors[slot], sectors[1 - slot]) if a != b and a != b"\xff" * g.z]
        assert labels.are(name, sectors[slot]) == len(own), name


def drawn(path, words, g):
    """What is found, and both pictures."""
    text, file = printed(*words), path.with_suffix(".svg")
    *findings, last = printed(*words, "--svg", file).splitlines()
    assert last == f"drawn into {file}", last
    # What is found, or said under a start, is prose, which may go on.
    rows = [line for line in text.splitlines()[:-len(findings)] if not line.startswith(" " * 10)]
    assert g.n > 8 or max(map(len, rows)) <= 100, text
    return findings, text, file.read_text()


def check_svg(svg, root, shows):
    check_standalone(svg, root)
    check_visible(root)
    losses = sum(row.cut for row in shows.rows)
    assert svg.count('class="lost"') == svg.count('class="bolt"') == svg.count('class="cut"') == losses, losses


def check(path, data, cuts=(), boots=1, images=None, versions=None, simulated=simulate, every=False):
    """What is said in the end. every: nothing is folded. images and versions: where they are known."""
    path.write_bytes(data)
    words = [path, "--boots", boots, *[word for cut in cuts for word in ("--cut", cut)], *["--all"] * every]
    shows = expected(data, cuts, boots, simulated)
    g, groups = shows.geometry, items_of(shows, not every)
    findings, text, svg = drawn(path, words, g)
    root = ElementTree.fromstring(svg)
    check_svg(svg, root, shows)
    check_legends(text, svg_legend(root))
    begun, pictures = swap_begun(g, data[24:]), (read_text(text, g.n), read_svg(root))
    when, items = " before the swap" * begun, [item for group in groups for item in group]
    images_known = images or (None if begun else [image(g, data[24:], slot) for slot in (BOOT, UPDATE)])
    labels = [check_rows(shows, items, picture.rows, short) for picture, short in zip(pictures, (True, False))]
    for picture, known in zip(pictures, labels):
        check_between(shows, groups, picture.between, labels[1])
        check_closing(shows, picture.findings, images_known, when)
        known.check()
        if versions is not None:
            check_names(picture, known, images, versions, when, g)
    assert findings == pictures[0].findings == pictures[1].findings, findings
    return findings
