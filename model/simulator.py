"""Document 01's simulator program."""
from model.board import RECORD, board_of, signed
from model.flash import BOOT
from model.loader import version
from model.runner import MOST_STEPS, run

MOST_FLASH = 65_536


def step_text(step):
    return " ".join(map(str, step))


def simulate(data):
    """What the program prints for its standard input."""
    if not RECORD.size <= len(data) <= RECORD.size + MOST_FLASH:
        return "REFUSE 5\n"
    board = board_of(data)
    outcome = run(board.geometry, board.flash, signed(board.answers), MOST_STEPS, (0, 0, 0, 0))
    kind, number = outcome.answer.kind, outcome.answer.number
    assert kind in ("BOOT", "REFUSE"), "4096 steps are enough"
    if kind == "BOOT":
        number = version(board.geometry, outcome.flash, BOOT)
    return "".join(f"{line}\n" for line in [*map(step_text, outcome.steps), f"{kind} {number}"])
