"""The picture as a self-contained SVG document: a row for each step, from top to bottom."""
from model.flash import BOOT, UPDATE
from picture.captions import FLAG_LEGEND, LOSS, TRAILER_LEGEND, WRITTEN, between, kinds_legend, size_text
from picture.findings import steps_text
from picture.folds import Fold
from picture.places import FLAG, SWAP
from picture.svg_columns import MARGIN, Columns
from picture.svg_page import Page
from picture.svg_rows import RowDrawing
from picture.words import NAMES

# In the legend: before the samples, a sample's width and height, and how much room a letter is given.
INDENT, SAMPLE, CELL, LETTER = 42, 36, 19, 6.5
# After so many rows the heading comes again, over so many at least. In the title a letter is given more room.
HEADED, LEAST, BOLD = 36, 6, 12


class Drawing:
    """y is where the next part begins."""

    def __init__(self, page, g, images):
        self.page, self.g, self.images, self.columns, self.y = page, g, images, Columns(g.n), MARGIN - 4
        self.rows = RowDrawing(page, self.columns, g, images)

    def line(self, kind, text, height, x=MARGIN):
        self.page.text(kind, x, self.y + height - 8, text)
        self.y += height

    def entries(self, name, entries):
        """Samples of cells with their meaning, as many on a line as fit."""
        self.page.text("booted", MARGIN, self.y + 14, name)
        x = MARGIN + INDENT
        for kind, style, label, text in entries:
            width = SAMPLE + 7 + LETTER * len(text)
            if x > MARGIN + INDENT and x + width > self.columns.right:
                x, self.y = MARGIN + INDENT, self.y + CELL + 6
            self.page.rect(kind, x, self.y, SAMPLE, CELL)
            self.page.text(style, x + SAMPLE / 2, self.y + 14, label)
            self.page.text("words", x + SAMPLE + 7, self.y + 14, text)
            x += width + 14
        self.y += CELL + 6

    def legend(self):
        rows = self.rows
        cells = [(kind, rows.sector_style(kind), rows.labels[kind], text)
                 for kind, text in kinds_legend(self.images).items()]
        self.entries("cells", [*cells, ("written", "label", "", WRITTEN)])
        self.entries("state", [*[("sound", "state", text[:2], text[3:]) for text in TRAILER_LEGEND],
                               ("open", "state", "", "not closed")])
        self.entries("flags", [(f"flag{text[0]}", rows.flag_style(text[0]), text[0], text[2:]) for text in FLAG_LEGEND])

    def heading(self):
        """The areas' names over their columns, and the sectors' numbers."""
        columns = self.columns
        for area, name in ((BOOT, NAMES[BOOT]), (UPDATE, NAMES[UPDATE]), (FLAG, "flags"), (SWAP, NAMES[SWAP])):
            self.page.text("name", columns.left[area], self.y + 18, name)
        for slot in BOOT, UPDATE:
            for i in range(0, self.g.n, 1 if columns.sector > 14 else 8):
                self.page.text("small", columns.middle(slot, i), self.y + 32, str(i))
            self.page.text("small", columns.middle(slot, self.g.n), self.y + 32, "trailer")
        self.y += 36

    def panel(self, rows):
        """Rows under a heading."""
        while len(rows) >= HEADED + LEAST:
            self.draw(rows[:HEADED])
            self.heading()
            rows = rows[HEADED:]
        if rows:
            self.draw(rows)

    def draw(self, rows):
        """Rows over bands that show the areas; a cut one has a band across."""
        height, (left, right) = self.rows.height, self.columns.edges()
        for x, width in self.columns.bands():
            self.page.rect("band", x - 5, self.y, width + 9, height * len(rows) + 4)
        for row in rows:
            if isinstance(row, Fold):
                self.rows.fold(row, self.y)
            else:
                if row.cut:
                    self.page.rect("cut", left, self.y + 3, right - left, height)
                self.rows.draw(row, self.y)
            self.y += height
        self.y += 4

    def between(self, power_up):
        lines, (left, right) = between(self.g, power_up, self.images), self.columns.edges()
        if lines[0][0] == LOSS:
            self.page.zigzag("lost", left, self.y + 5, right - left)
            self.page.bolt(MARGIN, self.y + 15)
        else:
            self.page.path("line", f"M{left} {self.y + 7}H{right}")
        self.y += 14
        for kind, text in lines:
            self.line(kind, text, 18, self.columns.words)

    def power_ups(self, history, drawn):
        for power_up, rows in zip(history.power_ups, drawn):
            self.panel(rows)
            if power_up is not history.power_ups[-1]:
                self.between(power_up)

    def findings(self, findings):
        left, right = self.columns.edges()
        self.page.path("line", f"M{left} {self.y + 9}H{right}")
        self.y += 16
        for i, text in enumerate(findings):
            self.line("booted" if i == 0 else "words", text, 20, self.columns.words)


def draw(name, history, images, findings, drawn):
    page = Page(f"{name}: {findings[0]}", ". ".join(findings))
    drawing = Drawing(page, history.found.geometry, images)
    room = drawing.columns.page // BOLD - len(findings[0])
    drawing.line("title", f"{name if len(name) <= room else name[:room - 3] + '...'}: {findings[0]}", 26)
    drawing.line("words", f"{size_text(drawing.g)}; {steps_text(history)}", 26)
    drawing.legend()
    drawing.heading()
    drawing.power_ups(history, drawn)
    drawing.findings(findings)
    return page.finished(drawing.columns.page, drawing.y + MARGIN - 8)
