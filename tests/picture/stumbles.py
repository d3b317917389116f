"""What people stumbled over: options and files that cannot be, each told in a line, with its status."""
import contextlib
import errno
import io
import os
import re
from unittest.mock import patch

from commands import explain, front, picture
from commands.failure import Failed

TOO_SHORT = "refused: fewer than 24 bytes of input, or more than 65,536 of flash (5)\n"
# Of ./frondicare picture with the example board: the status, and words that are said.
REFUSED = [
    ("--cut 99999", 1, "power-up 1 has 20 steps, and none is number 99999"), ("--cut 21", 1, "none is number 21"),
    ("--cut 0 --cut 1", 1, "there is no power-up 2 to cut"), ("--rows 21", 1, "none is number 21"),
    ("--rows 3-21", 1, "none is number 21"), ("--rows 2:1", 1, "there is no power-up 2"),
    ("--rows 1-5,30-", 1, "none is number 30"), ("--rows x", 2, "x is not of the form"),
    ("--rows 5-3", 2, "5-3 has no rows"), ("--rows 0:1", 2, "0:1 has no rows"), ("--rows 2:0", 2, "2:0 has no rows"),
    ("--rows 1,", 2, " is not of the form"), ("--rows -3", 2, "--rows"), ("--rows 1 --all", 2, "not allowed with"),
    ("--rows 1 --rows 2", 2, "--rows is given twice"), ("--boots 1 --boots 2", 2, "--boots is given twice"),
    ("--svg a --svg b", 2, "--svg is given twice"), ("--boots 0", 2, "0 is no number"), ("--cut -1", 2, "--cut"),
    ("--cut ½", 2, "½ is no number"), ("--ro 1", 2, "unrecognized"), ("more", 2, "unrecognized"),
]


def called(*words):
    """The status and what is printed, without proving."""
    said = io.StringIO()
    with contextlib.redirect_stdout(said), contextlib.redirect_stderr(said), contextlib.ExitStack() as stack:
        for command in (explain, picture):
            stack.enter_context(patch.object(command, "built"))
        try:
            words = [str(word) for word in words]
            given = front.parser(words).parse_args(words)
            status = given.run(given)
        except Failed as failure:
            return 1, f"{failure}\n"
        except SystemExit as end:
            status = end.code
    return status, said.getvalue()


def check_options(board):
    for words, status, text in REFUSED:
        answer, said = called("picture", board, *words.split())
        assert answer == status and text in said, (words, said)
        assert said.count("\n") == 1 or status == 2, said


def check_files(folder, board):
    """A line for each, which has the name."""
    for command in "explain", "picture":
        for name, told in ((folder, "Is a directory"), (folder / "none.bin", "No such file"), ("", "without a name")):
            answer, said = called(command, name)
            assert answer == 1 and str(name) in said and told in said and said.count("\n") == 1, said
        for length in (0, 10, 23, 200_000):
            short = folder / "short.bin"
            short.write_bytes(bytes(length))
            answer, said = called(command, short)
            assert answer == 1 and said.endswith(TOO_SHORT), said
    assert called("picture", short, "--svg", "-") == (1, TOO_SHORT)
    copy = folder / "copy.bin"
    copy.write_bytes(board.read_bytes())
    assert called("picture", copy, "--svg", folder / "." / "copy.bin") == (1, f"{copy} is the board\n")
    assert copy.read_bytes() == board.read_bytes()
    for name, told in ((folder, "Is a directory"), (folder / "none/a.svg", "No such file"), ("/dev/full", "No space")):
        answer, said = called("picture", board, "--svg", name)
        assert answer == 1 and said.startswith(f"{name}: {told}") and said.count("\n") == 1, said
    old = folder / "old.svg"
    old.write_text("an old drawing")
    with patch.object(os, "fsync", side_effect=OSError(errno.ENOSPC, "No space left on device")):
        assert called("picture", board, "--svg", old) == (1, f"{old}: No space left on device\n")
    assert old.read_text() == "an old drawing"


def check_names(folder, board):
    """A name that cannot be printed; the drawing on standard output is that in a file; a refused board is drawn."""
    strange = folder / "a\x01\udcff<&\n.bin"
    strange.write_bytes(board.read_bytes())
    assert called("picture", strange)[1].startswith("a??<&?.bin: 2 sectors")
    drawing = called("picture", strange, "--svg", "-")[1]
    assert called("picture", strange, "--svg", folder / "a\udcff.svg")[1].endswith(f"\ndrawn into {folder}/a?.svg\n")
    assert drawing == (folder / "a\udcff.svg").read_text() and "a??&lt;&amp;?.bin" in drawing, drawing
    long = folder / f"{'long' * 50}.bin"
    long.write_bytes(board.read_bytes())
    title = re.search('class="title".*>(.*)<', called("picture", long, "--svg", "-")[1])[1]
    assert re.fullmatch("(long)+.{0,3}[.]{3}: boots version 2 on trial", title) and len(title) < 75, title
    refused = folder / "refused.bin"
    refused.write_bytes(board.read_bytes()[:20] + bytes(4) + board.read_bytes()[24:])
    answer, said = called("picture", refused, "--svg", folder / "b.svg")
    assert answer == 1 and said.startswith("refused: BOOT: the signature checker says no (18)\nUPDATE passed over: ")
    assert (folder / "b.svg").exists() and said.endswith("b.svg\n"), said


def check_stumbles(folder, board):
    check_options(board)
    check_files(folder, board)
    check_names(folder, board)
