"""A picture read back from its text."""
import re

from tests.picture.drawn import Drawn, Picture, fold_of

SIGNS, FOLD_SIGN = ("~~~~ ", "==== ", "---- ", "     "), ".... "
COUNTED = re.compile(r"(?:(\d+)x)?([0-9A-F])(?: |$)")
RUN = re.compile(r"([ >])(?:(\d+)x)?(\S)(?=[ >]|$)")
COPY = re.compile(r"copy (\w+) (sector \d+) to (BOOT|UPDATE)(, mended)?$")
SLOTS = "BOOT", "UPDATE"


class TextReader:
    """The columns are those of the heading's two lines. Sectors have two characters each, or one, or are counted."""

    def __init__(self, names, below, n):
        self.n, self.spaced = n, n <= 4
        columns = {name: names.index(name) for name in (*SLOTS, "flags", "SWAP")}
        self.flags, self.swap, states = columns["flags"], columns["SWAP"], [found.start() for found in
                                                                            re.finditer("state", below)]
        # From the sign before the first sector to the space before the trailer's sign.
        self.sectors = {slot: slice(columns[slot] - 1, state - 2) for slot, state in zip(SLOTS, states)}
        self.trailers = {slot: state for slot, state in zip(SLOTS, states)}
        self.counted = states[0] - columns["BOOT"] < n + 2

    def label(self, text):
        """In the words of the SVG."""
        text = text.strip()
        return {".": "blank", "~": "other bytes"}.get(text[0], text.replace("==", "="))

    def flag_cells(self, text):
        flags = text if self.spaced else "".join(flag * int(count or 1) for count, flag in COUNTED.findall(text))
        return {f"flag of sector {i}": flag for i, flag in enumerate(flags)}

    def slot_cells(self, text):
        """The sign > or a space, and the label, of each sector."""
        if self.counted:
            runs = RUN.findall(text.rstrip())
            assert len(re.split("[ >]", text.rstrip())) == len(runs) + 1, text
            return [(sign, self.label(label)) for sign, count, label in runs for _ in range(int(count or 1))]
        if self.spaced:
            return [(text[at], self.label(text[at + 1:at + 3])) for at in range(0, 3 * self.n, 3)]
        return [(" ", self.label(text[at])) for at in range(1, self.n + 1)]

    def marked(self, line, signs):
        """With one character each a slot has one sign for all its sectors; flags always have."""
        found = [f"{slot} sector {i}" for slot in SLOTS for i, sign in enumerate(signs[slot]) if sign == ">"]
        if not self.counted and not self.spaced:
            found += [f"{slot} sector " for slot in SLOTS if line[self.sectors[slot].start] == ">"]
        found += [f"{slot}'s trailer" for slot in SLOTS if line[self.trailers[slot] - 1] == ">"]
        return (found + ["flag of sector "] * (line[self.flags - 1] == ">") + ["SWAP"] * (line[self.swap - 1] == ">"))

    def words(self, text):
        """In full: of more than eight sectors, a copy from slot to slot names its own once."""
        return COPY.sub(r"copy \1 \2 to \3 \2\4", text) if self.n > 8 else text

    def row(self, line):
        slots = {slot: self.slot_cells(line[self.sectors[slot]]) for slot in SLOTS}
        cells = {f"{slot} sector {i}": label for slot in SLOTS for i, (_, label) in enumerate(slots[slot])}
        cells |= {f"{slot}'s trailer": line[at:at + 3].strip() for slot, at in self.trailers.items()}
        cells |= self.flag_cells(line[self.flags:self.swap - 1].strip())
        cells["SWAP"] = self.label(line[self.swap:self.swap + 5])
        marked = self.marked(line, {slot: [sign for sign, _ in slots[slot]] for slot in SLOTS})
        number = int(line[:3].strip() or 0)
        assert len(marked) == line[:self.swap].count(">") <= (number > 0), line
        return Drawn(number, self.words(line[self.swap + 5:]), cells, marked[0] if marked else None)


def text_legend(text):
    """Lines that go on are indented."""
    cells = re.search(r"^cells (.*\n(?:      .*\n)*)", text, re.MULTILINE)[1]
    return {text: label for label, text in (entry.split(" ", 1) for entry in " ".join(cells.split()).split("; "))}


def read_text(text, n):
    names, below, *lines = text.split("\n\n")[1].splitlines()
    reader, rows, between = TextReader(names, below, n), [], [(1, [])]
    for line in lines:
        if line[5:10] == FOLD_SIGN:
            rows.append(fold_of(line[10:]))
        elif line[5:10] not in SIGNS:
            rows.append(reader.row(line))
        else:
            if line[5:9] in ("~~~~", "===="):
                between.append((len(rows), []))
            between[-1][1].append(line[10:])
    return Picture(text_legend(text), rows, between[1:-1], between[-1][1])
