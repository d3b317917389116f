#!/usr/bin/env python3
"""The simulator command against the reference model, model/: the whole output, for inputs at the edges of what it
takes, for the stored cases' boards, and for random boards. The seed is printed, and SEED=.. repeats a run.
Usage: simulator.py COMMAND"""
import subprocess
import sys
import tempfile
from collections import Counter
from pathlib import Path

if __name__ == "__main__":
    sys.path.insert(0, str(Path(__file__).resolve().parents[2]))
from model.simulator import simulate
from tests.chance import seeded
from tests.command.simulator_inputs import board, edges, stored

BOARDS = 1000
VERDICTS = [f"REFUSE {number}" for number in (*range(11, 19), 30)]
# The last lines that occur where no step was printed, and where some were.
AT_ONCE = {"BOOT", "REFUSE 1", "REFUSE 2", "REFUSE 3", "REFUSE 4", "REFUSE 5", "REFUSE 20", *VERDICTS}
LATER = {"BOOT", *VERDICTS}


def said(command, data):
    done = subprocess.run([command], input=data, capture_output=True)
    assert done.stderr == b"", done.stderr
    return done.stdout.decode("ascii")


def said_of_pipe(command, data):
    """The same with the input in small writes. Not all of a long one is read."""
    program = subprocess.Popen([command], stdin=subprocess.PIPE, stdout=subprocess.PIPE, bufsize=0)
    try:
        for start in range(0, len(data), 1000):
            program.stdin.write(data[start:start + 1000])
    except BrokenPipeError:
        pass
    return program.communicate()[0].decode("ascii")


def compare(command, name, data, say):
    expected, got = simulate(data), say(command, data)
    if got != expected:
        with tempfile.NamedTemporaryFile(prefix="simulator", delete=False) as kept:
            kept.write(data)
        sys.exit(f"FAILED {name}, its input kept in {kept.name}:\nexpected\n{expected}got\n{got}")
    *steps, last = expected.splitlines()
    return bool(steps), last if last.startswith("REFUSE") else "BOOT"


def check(seen):
    """Each kind of output occurs, and no other."""
    for steps, expected in ((False, AT_ONCE), (True, LATER)):
        found = {last for some, last in seen if some == steps}
        assert found == expected, (steps, found ^ expected)
    assert seen[True, "BOOT"] >= 100, seen


def main():
    [command] = sys.argv[1:]
    chance = seeded("simulator command")
    inputs = [*[("edge", data) for data in edges(chance)], *[("stored", data) for data in stored()],
              *[("board", board(chance)) for _ in range(BOARDS)]]
    seen = Counter()
    for i, (kind, data) in enumerate(inputs):
        say = said_of_pipe if i % 20 == 0 else said
        seen[compare(command, f"{kind} {i}", data, say)] += 1
    check(seen)
    print(f"simulator command: {len(inputs)} inputs passed; last lines, and whether steps came before:",
          dict(sorted((f"{last}, {'steps' if steps else 'none'}", count) for (steps, last), count in seen.items())))


if __name__ == "__main__":
    main()
