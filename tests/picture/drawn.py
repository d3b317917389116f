"""A picture as it is read back from its text or its SVG: what each row claims."""
import re
from typing import NamedTuple

FOLD = re.compile(r"sectors (\d+) to (\d+) like sector (\d+): (\d+) sectors, steps (\d+) to (\d+)")


class Drawn(NamedTuple):
    """A row: the step's number, its words, a label for each sector, trailer and flag by its name, and the names of what
    is marked as written and as copied, if any; a name that ends with a space is the beginning of one."""
    number: int
    words: str
    cells: dict
    written: str
    copied: str = None


class Folded(NamedTuple):
    """A row that stands for others: sectors from first to last, as the one before, in all these steps."""
    first: int
    last: int
    like: int
    sectors: int
    begins: int
    ends: int


class Picture(NamedTuple):
    """The legend gives the label of a meaning. Between rows stand lines, with how many rows come before them; the
    findings come last."""
    legend: dict
    rows: list
    between: list
    findings: list


def fold_of(text):
    return Folded(*map(int, FOLD.fullmatch(text).groups()))
