#!/usr/bin/env python3
"""The program behind ./frondicare tags against the reference model, model/: the lists that tests/vectors/tags.py
states, the headers of the stored cases, random images and random tags, well formed and damaged; and inputs that a pipe
brings in pieces. The seed is printed, and SEED=.. repeats a run.
Usage: tags_program.py PROGRAM"""
import subprocess
import sys
import time
from collections import Counter
from pathlib import Path

if __name__ == "__main__":
    sys.path.insert(0, str(Path(__file__).resolve().parents[2]))
from model.writer import tag
from tests.chance import seeded
from tests.command.verify_inputs import drawn
from tests.vectors import header_lookups, header_verdicts
from tests.vectors.header_lookups import blank
from tests.vectors.tags import CASES, text

DRAWN = 1500
TYPES = 0x0001, 0x0003, 0x0020, 0x0034, 0x0100, 0xFF34, 0x34FF, 0xFFFF


def run(program, data):
    done = subprocess.run([program], input=data, capture_output=True)
    assert (done.returncode, done.stderr) == (0, b""), done
    return done.stdout.decode("ascii")


def compare(program, data, expected):
    got = run(program, data)
    assert got == expected, f"{data[:256].hex()}:\nexpected {expected}\ngot {got}"
    *tags, end = expected.splitlines()
    return [end, "no tag" if not tags else "62 tags" if len(tags) == 62 else "tags",
            *["repeated"] * (len({line.split()[0] for line in tags}) < len(tags))]


def crowded(chance):
    """Small tags one behind the other or with padding between, up to 256, and at times past it."""
    data = bytearray(8)
    while len(data) < 256:
        kind = 0 if chance.random() < 0.01 else chance.choice(TYPES)
        data += tag(kind, b"\xff" * chance.choice((0, 0, 0, 1, 2, 9))) + b"\xff" * chance.choice((0, 0, 0, 1, 5))
    return bytes(data[:256 if chance.random() < 0.9 else chance.randint(0, 300)])


def check_pieces(program):
    """Whatever stands behind the first 256 bytes, and in whatever pieces they come."""
    header, says = CASES["the stored run"]
    with subprocess.Popen([program], stdin=subprocess.PIPE, stdout=subprocess.PIPE) as process:
        for start in range(0, 256, 37):
            process.stdin.write(header[start:min(start + 37, 256)])
            process.stdin.flush()
            time.sleep(0.01)
        assert process.communicate()[0].decode() == says.replace("|", "\n") + "\n"
    assert run(program, header[:256] + bytes(1_000_000)) == run(program, header)


def main():
    program = Path(sys.argv[1]).resolve()
    chance = seeded("list of tags")
    lists = [(header, says.replace("|", "\n") + "\n") for header, says in CASES.values()]
    headers = [case.body for cases in (header_lookups, header_verdicts) for case in cases.CASES]
    headers += [chance.choice((drawn, crowded))(chance) for _ in range(DRAWN)]
    headers += [blank((8, tag(0x1234, b"") * 62)), blank((8, tag(0x1234, b"") * 61))]
    inputs = lists + [(header, text(header)) for header in headers]
    seen = Counter(kind for data, expected in inputs for kind in compare(program, data, expected))
    assert set(seen) == {"END", "10", "13", "no tag", "tags", "62 tags", "repeated"}, seen
    assert min(count for kind, count in seen.items() if kind != "62 tags") >= 20, seen
    check_pieces(program)
    print(f"list of tags: {len(inputs)} headers passed:", dict(sorted(seen.items())))


if __name__ == "__main__":
    main()
