"""The cells of the text's rows: sectors, trailers, flags and SWAP in columns."""
from itertools import groupby

from model.flash import BOOT, UPDATE
from picture.contents import BLANK, FROM_BOOT, FROM_UPDATE, OTHER, SAME, contents_of
from picture.places import FLAG, SWAP, cell_written
from picture.words import FEW, NAMES, flags_text

# Codes of a terminal: on blue, on yellow, on white, faint, on magenta; what is written is underlined.
COLOURS = {FROM_BOOT: "97;44", FROM_UPDATE: "30;43", SAME: "30;47", BLANK: "2", OTHER: "97;45"}
UNDERLINED = "1;4"
# Up to so many sectors have a character each; of more it is told how many are alike in a row, if that is shorter.
MOST_SINGLE = 8


def labels(images, spaced):
    """What a sector is drawn as, by its kind."""
    names = [image.name if spaced and len(image.name) == 2 else image.mark for image in images]
    width = 2 if spaced else 1
    return {FROM_BOOT: names[0].ljust(width), FROM_UPDATE: names[1].ljust(width), SAME: "=" * width, BLANK: "." * width,
            OTHER: "~" * width}


def written_by(g, row):
    return cell_written(g, row.step) if row.wrote() else (None, None)


def kinds_in_a_row(contents, slot, written):
    """How many, of which kind, and whether it is what was written, which is always by itself."""
    keys = [(content.kind, written == (slot, i)) for i, content in enumerate(contents.slots[slot])]
    return [(len(list(run)), kind, here) for (kind, here), run in groupby(keys)]


class Cells:
    def __init__(self, g, images, rows, coloured):
        self.g, self.coloured, self.spaced = g, coloured, g.n <= FEW
        self.labels, self.contents = labels(images, self.spaced), {row.flash: contents_of(g, row.flash, images)
                                                                   for row in rows}
        counted = max([7, *map(self.counted_width, rows)])
        self.counted = MOST_SINGLE < g.n and counted <= g.n
        self.slot_width = 3 * g.n if self.spaced else counted if self.counted else g.n + 1
        texts = ["flags", *[self.flags_text(contents.flags) for contents in self.contents.values()]]
        self.flags_width = 1 + max(map(len, texts))

    def counted_width(self, row):
        """Of the wider slot."""
        written, contents = written_by(self.g, row), self.contents[row.flash]
        runs = [kinds_in_a_row(contents, slot, written) for slot in (BOOT, UPDATE)]
        return max(sum(2 if count == 1 else 3 + len(str(count)) for count, _, _ in run) for run in runs)

    def flags_text(self, flags):
        return "".join(f"{flag:X}" for flag in flags) if self.spaced else flags_text(flags)

    def paint(self, text, *codes):
        return f"\x1b[{';'.join(codes)}m{text}\x1b[0m" if self.coloured and codes else text

    def cell(self, text, written, *codes, width=0):
        return (">" if written else " ") + self.paint(text, *codes, *[UNDERLINED] * written) + " " * (width - len(text))

    def sectors(self, contents, slot, written):
        """With a character each the sign > stands before the slot."""
        runs = kinds_in_a_row(contents, slot, written)
        if self.counted:
            texts = [(f"{count}x{self.labels[kind]}" if count > 1 else self.labels[kind], here, COLOURS[kind])
                     for count, kind, here in runs]
            room = self.slot_width - sum(1 + len(text) for text, _, _ in texts)
            return "".join(self.cell(*text) for text in texts) + " " * room
        cells = [(self.labels[kind], here, COLOURS[kind]) for count, kind, here in runs for _ in range(count)]
        if self.spaced:
            return "".join(self.cell(*cell) for cell in cells)
        sign = ">" if any(here for _, here, _ in cells) else " "
        return sign + "".join(self.paint(label, colour, *[UNDERLINED] * here) for label, here, colour in cells)

    def trailer(self, contents, slot, written):
        """The state, with a ? where the trailer is not closed."""
        trailer = contents.trailers[slot]
        state = ".." if trailer.blank else f"{trailer.state:02X}"
        return self.cell(state, written == (slot, self.g.n)) + (" " if trailer.blank or trailer.sound else "?")

    def swap(self, content, written):
        label = self.labels[content.kind].strip()
        text = label if content.kind in (BLANK, OTHER) else f"{label}:{content.sector}"
        return self.cell(text, written[0] == SWAP, COLOURS[content.kind], width=4)

    def row(self, row):
        contents, written = self.contents[row.flash], written_by(self.g, row)
        slots = [f"{self.sectors(contents, slot, written)} {self.trailer(contents, slot, written)} "
                 for slot in (BOOT, UPDATE)]
        flags = self.cell(self.flags_text(contents.flags), written[0] == FLAG, width=self.flags_width - 1)
        return " ".join([*slots, flags, self.swap(contents.swap, written)])

    def heading(self):
        """The areas' names over their columns, and the sectors' numbers."""
        numbers = "".join(f" {i:<2}" for i in range(self.g.n)) if self.spaced else f" 0..{self.g.n - 1}"
        names = "".join(f" {name:<{self.slot_width + 6}}" for name in NAMES[:SWAP])
        below = f"{numbers:<{self.slot_width}}  state" * 2
        return [f"{names} {'flags':<{self.flags_width}} {NAMES[SWAP]}", below]
