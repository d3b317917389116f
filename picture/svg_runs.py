"""Cells of the SVG that are drawn as one: neighbours that are equal, where none has room for its own label."""
from itertools import groupby


def fits(label, width):
    """The widest letters are those of the label's monospace font."""
    return 7.3 * len(label) + 2 <= width


def runs(values, together, written):
    """Equal neighbours, or each by itself: where a run begins, how long it is, and its value. What the step wrote is
    always by itself."""
    keys = [(value, 0 if together and i != written else i + 1) for i, value in enumerate(values)]
    lengths = [len(list(run)) for _, run in groupby(keys)]
    begins = [sum(lengths[:i]) for i in range(len(lengths))]
    return [(begin, length, values[begin]) for begin, length in zip(begins, lengths)]


def numbered(words, begin, length):
    return f"{words} {begin}" if length == 1 else f"{words}s {begin} to {begin + length - 1}"
