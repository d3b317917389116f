#!/usr/bin/env python3
"""Writes the files of the program simulator: document 01's example, and the output that document 01 prints for it. The
reference model is held to that output.
Usage: simulator.py stdin > crates/simulator/stdin, and simulator.py stdout > crates/simulator/stdout"""
import sys
from pathlib import Path

if __name__ == "__main__":
    sys.path.insert(0, str(Path(__file__).resolve().parents[2]))
from model.board import Board
from model.simulator import simulate
from tests.vectors.loader_case import BOTH, U70, G, filled
from tests.vectors.loader_images import ONE, TWO
from tests.vectors.stored import print_file

# As document 01 has it, one item a line.
OUTPUT = """\
C 768 1536
B 1530 247
E 768
C 0 768
B 1530 243
E 0
C 1536 0
B 1530 240
E 1536
C 1024 1536
B 1530 112
E 1024
C 256 1024
B 1530 48
E 256
C 1536 256
B 1530 0
B 763 16
M 764
B 1531 48
BOOT 2
"""
INPUT = Board(G, filled(ONE, TWO, U70), BOTH).data()


def main():
    said = simulate(INPUT)
    assert said == OUTPUT, said
    print_file({"stdin": INPUT, "stdout": OUTPUT.encode("ascii")})


if __name__ == "__main__":
    main()
