"""Says what a board is, and in plain words what the simulator's steps do on it. Where sectors one after the other are
exchanged alike, the first and the last of them are told step by step, and the others in one line. A refused board has
status 1."""
from commands.inputs import contents
from commands.programs import built
from picture.explain import explained

HELP = "the simulator's steps with plain words beside them"
EXAMPLES = """examples:
  ./frondicare explain examples/board/update.bin
  ./frondicare explain examples/board/return.bin"""


def options(parser):
    parser.add_argument("board", metavar="BOARD", help="an input of the simulator; - is standard input")
    parser.add_argument("--all", action="store_true", help="tells every step of every sector")


def run(given):
    data = contents(given.board)
    built("simulator")
    lines, end = explained(data, given.all)
    print("\n".join(lines))
    return 0 if end[0] == "BOOT" else 1
