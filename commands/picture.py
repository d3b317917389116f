"""Draws a board and the update on it from the steps that the simulator prints, with power losses where they are asked
for. Each step is a row. Where sectors one after the other are exchanged alike, the first and the last of them are
drawn, and the others are one row."""
import argparse
import os
import re
import sys
from pathlib import Path

from commands.failure import Failed
from commands.inputs import contents, told
from commands.options import Once, at_least
from commands.outputs import write_whole
from commands.programs import built
from picture import svg, text
from picture.drawn import ALL, Part, drawn_rows
from picture.findings import findings_of
from picture.images import images_of
from picture.power_ups import NoSuchStep, history_of
from picture.simulator import board_or_none, simulated
from picture.words import refusal_text

HELP = "an update drawn step by step, with power losses"
EXAMPLES = """examples:
  ./frondicare picture examples/board/update.bin --cut 7
  ./frondicare picture examples/board/update.bin --boots 2 --svg target/picture.svg

with a board of 64 sectors:
  --cut 300                            the power is lost on step 300
  --cut 300 --rows 290-300,2:1-12      only the steps around the loss
  --cut 300 --all --svg update.svg     every step, into a file

exit status: 0 drawn; 1 the board is refused (it is drawn where it has areas), or something failed; 2 the command is not
understood"""
PART = re.compile(r"(?:(\d+):)?(\d+)(-(\d*))?", re.ASCII)


def part(text):
    """One part of --rows."""
    found = PART.fullmatch(text)
    if found is None:
        raise argparse.ArgumentTypeError(f"{text} is not of the form A, A-B, A- or P:A-B")
    power_up, first = int(found[1] or 1), int(found[2])
    last = first if found[3] is None else int(found[4]) if found[4] else None
    if power_up == 0 or first == 0 and power_up > 1 or last is not None and last < first:
        raise argparse.ArgumentTypeError(f"{text} has no rows")
    return Part(power_up, first, last)


def rows(text):
    return ALL if text == ALL else [part(word) for word in text.split(",")]


def options(parser):
    parser.add_argument("board", metavar="BOARD", help="an input of the simulator; - is standard input")
    parser.add_argument("--cut", metavar="STEP", type=at_least(0), action="append", default=[],
                        help="the power is lost on this step of the first power-up, counted from 1; once more for the "
                        "second, and so on; 0 is uncut")
    parser.add_argument("--boots", metavar="N", type=at_least(1), default=1, action=Once,
                        help="goes on to the next start up to this boot")
    which = parser.add_mutually_exclusive_group()
    which.add_argument("--rows", metavar="A-B", type=rows, action=Once,
                       help="only these rows, none folded: steps by their numbers, which begin with 1 in each power-up "
                       "(0 is the board as found); A-B is of the first power-up, 2:A-B of the second, A- goes to its "
                       "end, and A is one row; several with commas between them; all is every row")
    which.add_argument("--all", dest="rows", action="store_const", const=ALL, help="every row: --rows all")
    parser.add_argument("--svg", metavar="FILE", action=Once,
                        help="draws into this file, and prints what was found only; - is standard output, for the "
                        "drawing alone")


def coloured():
    return sys.stdout.isatty() and "NO_COLOR" not in os.environ


def printable(name):
    """A file may have any name."""
    return "".join(c if c.isprintable() else "?" for c in name)


def saved(name, drawing, board):
    """Whole, so that an old drawing stays where there is no room; a device or a pipe is written as it is."""
    try:
        path = Path(name)
        if board != "-" and path.exists() and path.samefile(board):
            raise Failed(f"{name} is the board")
        if path.exists() and not path.is_file():
            path.write_text(drawing, encoding="utf-8")
        else:
            write_whole(name, drawing.encode())
    except (OSError, ValueError) as error:
        raise Failed(told(name, error)) from error
    return f"drawn into {printable(name)}"


def shown(given, data):
    """The lines to print, and the exit status."""
    board = board_or_none(data)
    if board is None:
        refused = refusal_text(simulated(data)[1][1])
        if given.svg == "-":
            raise Failed(refused)
        return [refused, *["nothing is drawn"] * (given.svg is not None)], 1
    try:
        history = history_of(board, given.cut, given.boots)
        images = images_of(history.found.geometry, history.found.flash)
        drawn = drawn_rows(history, images, given.rows)
    except NoSuchStep as error:
        raise Failed(error) from error
    findings = findings_of(history, images)
    name = "standard input" if given.board == "-" else printable(Path(given.board).name)
    status = int(history.power_ups[-1].end[0] == "REFUSE")
    if given.svg is None:
        return text.draw(name, history, images, findings, drawn, coloured()), status
    drawing = svg.draw(name, history, images, findings, drawn)
    return [drawing.rstrip("\n")] if given.svg == "-" else [*findings, saved(given.svg, drawing, given.board)], status


def run(given):
    data = contents(given.board)
    built("simulator")
    lines, status = shown(given, data)
    print("\n".join(lines))
    return status
