#!/usr/bin/env python3
"""Writes the boards of examples/board, as document 01's simulator takes them: its example; the same board after that
update; and the update cut by a power loss while it writes BOOT's first sector, which holds half of the copy then.
Usage: boards.py update > examples/board/update.bin, and so for return and interrupted"""
import sys
from pathlib import Path

if __name__ == "__main__":
    sys.path.insert(0, str(Path(__file__).resolve().parents[2]))
from model.board import Board
from model.flash import carried_out
from tests.vectors.flash_case import laid_over
from tests.vectors.loader_case import BOTH, U70, G, filled
from tests.vectors.loader_images import ONE, TWO
from tests.vectors.loader_stories import EXCHANGE
from tests.vectors.stored import print_file

STEPS = f"{EXCHANGE}; B 763 16; M 764; B 1531 48".split("; ")
CUT = "C 1536 0"


def after(flash, steps):
    for step in steps:
        letter, *numbers = step.split()
        flash = carried_out(G, flash, (letter, *map(int, numbers)))
    return flash


STAGED = filled(ONE, TWO, U70)
BEFORE_CUT = after(STAGED, STEPS[:STEPS.index(CUT)])
FLASHES = {
    "update": STAGED,
    "return": after(STAGED, STEPS),
    "interrupted": laid_over(BEFORE_CUT, [(G.boot, TWO[:G.z // 2])]),
}

if __name__ == "__main__":
    print_file({name: Board(G, flash, BOTH).data() for name, flash in FLASHES.items()})
