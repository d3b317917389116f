"""What the text and the SVG say above their rows, beside them and between them."""
from picture.contents import BLANK, FROM_BOOT, FROM_UPDATE, OTHER, SAME, content_text, contents_of
from picture.ends import end_text, reasons
from picture.places import SWAP, cell_written
from picture.words import FLAGS, MEANS, SAFE, STATES, sector_text, step_text

# Lines between two power-ups: how one ended, what a cut left, how the next begins.
LOSS, LEFT, BOOTED, START = "loss", "left", "booted", "start"
WRITTEN = "just written"
FLAGS_ORDER = "sector 0's first"
TRAILER_LEGEND = [", ".join(filter(None, (f"{state:02X} {text}", MEANS.get(state)))) for state, text in STATES.items()]
FLAG_LEGEND = [", ".join(filter(None, (f"{flag:X} {text}", SAFE.get(flag)))) for flag, text in FLAGS.items()]


def kinds_legend(images):
    """The kinds of cells. Few boards have sectors that are the same in both images."""
    same = [a for a, b in zip(images[0].sectors, images[1].sectors) if a == b and set(a) != {0xFF}]
    texts = {FROM_BOOT: images[0].text, FROM_UPDATE: images[1].text, BLANK: "all FF", OTHER: "torn or other bytes"}
    return texts | ({SAME: "the same in both"} if same else {})


def row_text(g, row):
    """A flag's meaning is left to the legend."""
    return "as found" if row.step is None else step_text(g, *row.step).partition(", ")[0]


def mended_text(row):
    return ", mended" if row.mended and not row.cut else ""


def left_text(g, row, images):
    """What the cut step left."""
    if not row.wrote():
        return "not begun"
    contents, (area, i) = contents_of(g, row.flash, images), cell_written(g, row.step)
    if area == SWAP:
        left = content_text(contents.swap, images, numbered=True)
    else:
        left = content_text(contents.slots[area][i], images) if i < g.n else contents.trailers[area].text()
    return f"{sector_text(g, area, i)} is left with: {left}"


def between(g, power_up, images):
    """The lines after a power-up that isn't the last."""
    if power_up.end[0] == "BOOT":
        return [(BOOTED, end_text(power_up)), *[(LEFT, text) for text in reasons(power_up)], (START, "next start")]
    last = power_up.rows[-1]
    return [(LOSS, f"power lost during: {row_text(g, last)}"), (LEFT, left_text(g, last, images)),
            (START, "power up again")]


def size_text(g):
    return f"{g.n} sector{'s' * (g.n > 1)} of {g.z} bytes in each slot, and a trailer"
