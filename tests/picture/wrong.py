"""Loaders that print wrong steps: the picture has to show what the steps do, and to say what is lost."""
from model.board import record
from model.simulator import simulate
from picture import simulator
from picture.findings import outside_text
from tests.picture.check import ROOT, check, printed
from tests.picture.drawn import Folded
from tests.picture.read_text import read_text
from tests.vectors.flash_case import GAPS, MOST
from tests.vectors.loader_case import BOTH
from tests.vectors.loader_stories import triggered
from tests.vectors.runner_updates import two

DATA = (ROOT / "examples/board/update.bin").read_bytes()
# Steps on the example board, and what has to be said of BOOT and of UPDATE.
OWN = [f"{slot}: version {version}, whole; every byte from {slot}" for slot, version in (("BOOT", 1), ("UPDATE", 2))]
OTHER = "does not pass, {}; other bytes than found"
WRONG = {
    "E 0; C 768 0; E 256; C 1024 256; BOOT 2": ("BOOT: version 2, whole; every byte from UPDATE", OWN[1]),
    "E 256; BOOT 1": (f"BOOT: {OTHER.format('the digest differs (17)')}", OWN[1]),
    "E 1024; C 0 1024; BOOT 1": (OWN[0], f"UPDATE: {OTHER.format('the digest differs (17)')}"),
    "C 0 1536; E 768; C 256 768; BOOT 1": (OWN[0], f"UPDATE: {OTHER.format('the image mark is wrong (11)')}"),
}


def stand_in(path, lines):
    """In the simulator's place a program that prints these lines."""
    wrong = path.with_name("wrong")
    wrong.write_text(f"#!/bin/sh\ncat >/dev/null\ncat <<END\n{lines}END\n")
    wrong.chmod(0o700)
    simulator.PROGRAM = wrong


def check_unlike(path):
    """SWAP is never erased, so that only sector 0 is exchanged rightly, by the steps that all others have: these are
    not folded as if they were like it."""
    data = record(MOST, BOTH) + triggered(MOST, *two(MOST.n))
    stand_in(path, simulate(data).replace(f"E {MOST.swap}\n", ""))
    path.write_bytes(data)
    folds = [row for row in read_text(printed(path), MOST.n).rows if isinstance(row, Folded)]
    assert folds and folds[0].first == 2, folds


def check_outside():
    """No step that is accepted writes there. So it is asked of flashes that no loader leaves, a byte in the middle one
    being another."""
    found = bytes(GAPS.length)
    for at in range(GAPS.length):
        said = outside_text(GAPS, [found, found[:at] + b"\1" + found[at + 1:], found])
        inside = any(at in area for area in GAPS.areas())
        assert said == f"{'nothing' if inside else 'bytes'} outside the three areas changed", (at, said)


def check_wrong_loaders(path):
    right = simulator.PROGRAM
    for steps, slots in WRONG.items():
        lines = steps.replace("; ", "\n") + "\n"
        stand_in(path, lines)
        findings = check(path, DATA, simulated=lambda data, lines=lines: lines)
        assert tuple(findings[-4:-2]) == slots, findings
    check_unlike(path)
    check_outside()
    simulator.PROGRAM = right
