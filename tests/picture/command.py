"""The command itself: colours on a terminal only, standard input, a pipe that is closed, the stored example, and words
that examples/board has too."""
import os
import pty
import re
import subprocess

from tests.picture.stumbles import TOO_SHORT, check_stumbles

CODES = re.compile(r"\x1b\[[0-9;]*m")


def said(root, *words, status=0):
    done = subprocess.run([root / "frondicare", "picture", *words], capture_output=True, text=True)
    assert done.returncode == status and done.stderr == "", done
    return done.stdout


def said_on_terminal(root, board, **environment):
    master, slave = pty.openpty()
    given = {name: value for name, value in os.environ.items() if name != "NO_COLOR"} | environment
    with subprocess.Popen([root / "frondicare", "picture", board], stdout=slave, env=given) as command:
        os.close(slave)
        text = b""
        try:
            while data := os.read(master, 65536):
                text += data
        except OSError:
            pass
    os.close(master)
    assert command.returncode == 0
    return text.decode("ascii").replace("\r\n", "\n")


def check_pipes(root, folder, board, plain):
    """Standard input has no name; the simulator doesn't read all of a long board; whoever reads only the first line
    hears no complaint."""
    command = [root / "frondicare", "picture"]
    with open(board, "rb") as file:
        piped = subprocess.run([*command, "-"], stdin=file, capture_output=True, text=True)
    assert piped.stdout == plain.replace(board.name, "standard input", 1) and not piped.stderr, piped
    long = folder / "long.bin"
    long.write_bytes(bytes(1_000_000))
    assert said(root, long, status=1) == TOO_SHORT
    # More than a pipe holds.
    boots = ["--boots", "60"]
    with subprocess.Popen([*command, board, *boots], stdout=subprocess.PIPE, stderr=subprocess.PIPE, text=True) as cut:
        assert cut.stdout.readline() == plain.splitlines(keepends=True)[0]
        cut.stdout.close()
        assert cut.stderr.read() == ""


def check_command(root, folder):
    board, stored = root / "examples/board/update.bin", root / "docs/power-loss.svg"
    plain, coloured = said(root, board), said_on_terminal(root, board)
    assert "\x1b" not in plain and "\x1b" in coloured and CODES.sub("", coloured) == plain
    assert said_on_terminal(root, board, NO_COLOR="1") == plain
    explained = [line[14:].partition(", ")[0] for line in board.with_suffix(".txt").read_text().splitlines()[3:-1]]
    steps = [line for line in plain.splitlines() if line[:3].strip().isdigit()]
    assert len(steps) == len(explained) and all(line.endswith(f" {words}") for line, words in zip(steps, explained))
    findings = said(root, board, "--cut", "7", "--svg", folder / "drawn.svg")
    assert (folder / "drawn.svg").read_text() == stored.read_text(), "docs/power-loss.svg is another picture"
    assert findings.splitlines()[4] == "22 steps begun, 1 power loss, mended", findings
    check_pipes(root, folder, board, plain)
    check_stumbles(folder, board)
