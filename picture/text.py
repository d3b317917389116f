"""The picture as text: a line for each step or fold, and lines of their own for a power loss and a boot."""
import re
import textwrap

from picture.captions import (BOOTED, FLAG_LEGEND, FLAGS_ORDER, LEFT, LOSS, START, TRAILER_LEGEND, WRITTEN, between,
                              kinds_legend, mended_text, row_text, size_text)
from picture.folds import Fold
from picture.text_cells import MOST_SINGLE, Cells

COLUMNS, NO_BREAK = 100, "\xa0"
# Of a copy from slot to slot: where there are many sectors, the number is said once.
SAME_NUMBER = re.compile(r"(sector \d+) to (\w+) \1$")
# A power loss is red.
RED = "1;31"
FOLDED = "folded"
SIGNS = {LOSS: "~~~~", LEFT: "    ", BOOTED: "====", START: "----", FOLDED: "...."}


class Drawing:
    def __init__(self, history, images, drawn, coloured):
        self.g, self.history, self.images, self.drawn = history.found.geometry, history, images, drawn
        rows = [row for rows in drawn for row in rows if not isinstance(row, Fold)]
        self.cells = Cells(self.g, images, rows, coloured)

    def row(self, row):
        if isinstance(row, Fold):
            return self.between_line(FOLDED, row.text())
        words = row_text(self.g, row)
        if self.g.n > MOST_SINGLE:
            words = SAME_NUMBER.sub(r"\1 to \2", words)
        return f"{row.number or '':>3} {self.cells.row(row)} {words}{mended_text(row)}"

    def legend(self):
        labels = self.cells.labels
        cells = [f"{labels[kind].strip()} {text}" for kind, text in kinds_legend(self.images).items()]
        cells += ["9x. nine in a row"] * self.cells.counted
        entries = [("cells", cells), ("state", [*TRAILER_LEGEND, ".. all FF", "with ? not closed"]),
                   ("flags", [FLAGS_ORDER, *FLAG_LEGEND]), (">", [WRITTEN])]
        # A line ends between two entries, whose own spaces do not break.
        joined = [f"{name:<5} {'; '.join(text.replace(' ', NO_BREAK) for text in texts)}" for name, texts in entries]
        lines = [line for text in joined for line in textwrap.wrap(text, COLUMNS, subsequent_indent=" " * 6)]
        return [line.replace(NO_BREAK, " ") for line in lines]

    def between_line(self, kind, text):
        return self.cells.paint(f"     {SIGNS[kind]} {text}", *[RED] * (kind == LOSS))

    def power_ups(self):
        lines = []
        for power_up, rows in zip(self.history.power_ups, self.drawn):
            lines += [self.row(row) for row in rows]
            if power_up is not self.history.power_ups[-1]:
                lines += [self.between_line(*line) for line in between(self.g, power_up, self.images)]
        return lines


def draw(name, history, images, findings, drawn, coloured):
    drawing, (first, *others) = Drawing(history, images, drawn, coloured), findings
    heading = [f"    {line}" for line in drawing.cells.heading()]
    return [f"{name}: {size_text(drawing.g)}", *drawing.legend(), "", *heading, *drawing.power_ups(),
            drawing.between_line(BOOTED, first), *[drawing.between_line(LEFT, text) for text in others]]
