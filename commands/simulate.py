"""Document 01's simulator on a board: 24 bytes of geometry and signature answers, then the flash. Prints a line for
each flash step, then BOOT and the version or REFUSE and the number; a refusal has status 1."""
import subprocess
import sys

from commands.inputs import contents
from commands.programs import built
from picture.words import refusal_text

HELP = "the loader's steps on a board, as document 01 prints them"
EXAMPLES = """examples:
  ./frondicare simulate examples/board/update.bin
  ./frondicare simulate < examples/board/return.bin"""


def options(parser):
    parser.add_argument("board", metavar="BOARD", nargs="?", default="-",
                        help="standard input where it is left out or -")


def run(given):
    data = contents(given.board)
    said = subprocess.run([built("simulator")], input=data, stdout=subprocess.PIPE, check=True).stdout.decode("ascii")
    print(said, end="")
    word, number = said.splitlines()[-1].split()
    if word == "BOOT":
        return 0
    print(f"./frondicare simulate: {refusal_text(int(number))}", file=sys.stderr)
    return 1
