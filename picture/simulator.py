"""The proved simulator on a board."""
import subprocess
import tempfile
from pathlib import Path

from model.board import RECORD, board_of
from model.flash import check
from model.refusals import Refused
from model.simulator import MOST_FLASH

PROGRAM = Path(__file__).resolve().parents[1] / "crates/simulator/out/simulator"


def board_or_none(data):
    """None where the input is too short or too long, or its geometry is refused: there is nothing to show."""
    if not RECORD.size <= len(data) <= RECORD.size + MOST_FLASH:
        return None
    board = board_of(data)
    try:
        check(board.geometry)
    except Refused:
        return None
    return board


def printed(data):
    """What the simulator prints. It is given a file: of a long input it doesn't read all, and a pipe would break."""
    with tempfile.TemporaryFile() as file:
        file.write(data)
        file.seek(0)
        return subprocess.run([PROGRAM], stdin=file, stdout=subprocess.PIPE, check=True).stdout.decode("ascii")


def simulated(data):
    """The steps and the end."""
    *steps, end = [(word, *map(int, numbers)) for word, *numbers in map(str.split, printed(data).splitlines())]
    return steps, end
