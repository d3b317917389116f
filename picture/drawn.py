"""Which rows of a history are drawn: all of them, those that are asked for, or all but what folds."""
from typing import NamedTuple

from picture.folds import folded
from picture.power_ups import NoSuchStep, check_step

ALL = "all"


class Part(NamedTuple):
    """Rows of a power-up, from one number to another; None is its last. The board as found is row 0 of the first."""
    power_up: int
    first: int
    last: int

    def check(self, history):
        if self.power_up > len(history.power_ups):
            raise NoSuchStep(f"there is no power-up {self.power_up}")
        for number in (self.first, self.last or 0):
            check_step(self.power_up, len(history.power_ups[self.power_up - 1].rows), number)

    def has(self, power_up, row):
        return power_up == self.power_up and self.first <= row.number and (
            self.last is None or row.number <= self.last)


def drawn_rows(history, images, wanted):
    """For each power-up its rows and folds. wanted: None to fold, ALL, or parts."""
    drawn = []
    for part in wanted if isinstance(wanted, list) else []:
        part.check(history)
    for number, power_up in enumerate(history.power_ups, 1):
        found = [history.as_found()] if number == 1 else []
        if wanted is None:
            drawn.append([*found, *folded(history.found.geometry, power_up.rows, images)])
        else:
            drawn.append([row for row in (*found, *power_up.rows)
                          if wanted == ALL or any(part.has(number, row) for part in wanted)])
    return drawn
