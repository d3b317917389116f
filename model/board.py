"""A board as document 01's simulator takes it: a record of six numbers, and the flash. Of the signature checker's
answers bit 0 is for BOOT and bit 1 for UPDATE."""
import struct
from typing import NamedTuple

from model.flash import Geometry

RECORD = struct.Struct("<6I")


class Board(NamedTuple):
    geometry: Geometry
    flash: bytes
    answers: int

    def data(self):
        return record(self.geometry, self.answers) + self.flash


def record(geometry, answers):
    return RECORD.pack(geometry.z, geometry.n, geometry.boot, geometry.update, geometry.swap, answers)


def board_of(data):
    """Of at least a record. Other bits of the answers than the two are not read."""
    *numbers, answers = RECORD.unpack(data[:RECORD.size])
    flash = data[RECORD.size:]
    return Board(Geometry(*numbers, len(flash)), flash, answers & 3)


def signed(answers):
    """A truth value for each slot."""
    return bool(answers & 1), bool(answers & 2)
