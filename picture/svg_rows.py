"""One row of the SVG: a step in words, the cells after it, what it wrote and where a copy came from."""
from model.flash import BOOT, UPDATE
from picture.captions import mended_text, row_text
from picture.contents import BLANK, FROM_BOOT, FROM_UPDATE, OTHER, SAME, content_text, contents_of
from picture.places import FLAG, SWAP, cell_read, cell_written
from picture.svg_runs import fits, numbered, runs
from picture.words import FLAGS, NAMES

# The lane for an arrow, then the cells; and so in a board of more sectors than have room for labels.
TALL, LOW, MOST_TALL = (9, 19), (7, 16), 8


class RowDrawing:
    def __init__(self, page, columns, g, images):
        self.page, self.columns, self.g, self.images = page, columns, g, images
        self.labels = {FROM_BOOT: images[0].name, FROM_UPDATE: images[1].name, SAME: "=", BLANK: "blank", OTHER: "?"}
        # Names that do not fit a sector, or a flag, are written over all neighbours that are equal.
        self.sectors_together = not all(fits(image.name, columns.sector) for image in images)
        self.flags_together = not fits("F", columns.flag)
        self.lane, self.cell = TALL if g.n <= MOST_TALL else LOW
        # From a row's top to the next one's, and to the foot of its letters.
        self.height, self.foot = self.lane + self.cell + 2, self.lane + (self.cell + 9) // 2

    def box(self, kind, area, begin, length, y, title, label, style):
        x, width = self.columns.cell(area, begin)
        width = width * length - 1
        self.page.rect(kind, x, y + self.lane, width, self.cell, title)
        if label and (area == SWAP or begin == self.g.n or fits(label, width)):
            self.page.text(style, x + width / 2, y + self.foot, label)

    def sector(self, area, begin, length, content, y, title, label):
        """Halves that differ are drawn apart, with a tear between them."""
        if not content.halves:
            self.box(content.kind, area, begin, length, y, title, label, self.sector_style(content.kind))
            return
        x, width = self.columns.cell(area, begin)
        half = (width - 1) / 2
        for i, kind in enumerate(content.halves):
            self.page.rect(kind, x + i * half, y + self.lane, half, self.cell, title if i == 0 else None)
        tooth = (self.cell - 4) // 3
        self.page.path("tear", f"M{x + half} {y + self.lane - 2}l2.5 {tooth + 1}l-5 {tooth}l5 {tooth}l-2.5 7")

    def slot(self, contents, slot, written, y):
        plain = [content._replace(sector=0) for content in contents.slots[slot]]
        for begin, length, content in runs(plain, self.sectors_together, written.get(slot)):
            title = f"{numbered(f'{NAMES[slot]} sector', begin, length)}: {content_text(content, self.images)}"
            self.sector(slot, begin, length, content, y, title, self.labels[content.kind])
        trailer = contents.trailers[slot]
        kind = "blank" if trailer.blank else "sound" if trailer.sound else "open"
        self.box(kind, slot, self.g.n, 1, y, f"{NAMES[slot]}'s trailer: {trailer.text()}", trailer.text(), "state")

    def sector_style(self, kind):
        return "state faint" if kind == BLANK else "label"

    def flag_style(self, flag):
        """Light letters on the dark kinds."""
        return "flag light" if flag in "03" else "flag"

    def flags(self, contents, written, y):
        for begin, length, flag in runs(contents.flags, self.flags_together, written.get(FLAG)):
            kind = f"flag{flag:X}" if flag in FLAGS else "other"
            title = f"flag of {numbered('sector', begin, length)}: {flag:X} {FLAGS.get(flag, 'unknown')}"
            self.box(kind, FLAG, begin, length, y, title, f"{flag:X}", self.flag_style(f"{flag:X}"))

    def swap(self, content, y):
        label = self.labels[content.kind]
        label = label if content.kind in (BLANK, OTHER) else f"{label}:{content.sector}"
        title = f"{NAMES[SWAP]}: {content_text(content, self.images, numbered=True)}"
        self.sector(SWAP, 0, 1, content, y, title, label)

    def step(self, step, y):
        """What it wrote is framed; an arrow leads from what it copied."""
        area, i = cell_written(self.g, step)
        x, width = self.columns.cell(area, i)
        self.page.rect("written", x - 1, y + self.lane - 1, width + 1, self.cell + 2)
        source = cell_read(self.g, step)
        if source is not None:
            start, end, top = self.columns.middle(*source), self.columns.middle(area, i), y + self.lane
            self.page.path("arrow", f"M{start} {top}V{y + 3}H{end}V{top - 4}")
            self.page.path("head", f"M{end} {top - 1}l-3.5 -5h7z")

    def words(self, row, y):
        if row.number:
            self.page.text("number", self.columns.number, y, str(row.number))
        words = self.page.text("loss" if row.cut else "words", self.columns.words, y, row_text(self.g, row))
        if mended_text(row):
            self.page.add("tspan", "mended", mended_text(row), parent=words)

    def fold(self, fold, y):
        """A gap across the page."""
        left, right = self.columns.edges()
        self.page.open("fold")
        self.page.rect("gap", left, y + self.lane - 1, right - left, self.cell + 2)
        self.page.text("words", self.columns.words, y + self.foot, fold.text())
        self.page.close()

    def draw(self, row, y):
        contents = contents_of(self.g, row.flash, self.images)
        written = dict([cell_written(self.g, row.step)] if row.wrote() else [])
        self.page.open("row")
        self.words(row, y + self.foot)
        for slot in BOOT, UPDATE:
            self.slot(contents, slot, written, y)
        self.flags(contents, written, y)
        self.swap(contents.swap, y)
        if row.wrote():
            self.step(row.step, y)
        self.page.close()
