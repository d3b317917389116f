#!/usr/bin/env python3
"""Writes the files of the program runner_cases with the reference model, model/. The cases stand beside this file, with
the answers that document 01 states or that a reader of it can write down, and the model is held to those first.
Usage: runner.py stdin > crates/runner_cases/stdin, and runner.py stdout > crates/runner_cases/stdout

Standard input has one record behind the other. A record is
    1 byte      the length of its name
                the name
    24 bytes    z, n, BOOT, UPDATE, SWAP, signature answers, as document 01's simulator takes them
    4 bytes     the number of steps
    16 bytes    the counters before the run: erases, copies, bytes, marks
    4 bytes     the length of the flash
                the flash; with length 0 it is what the record before left, and as long
All numbers are little-endian. Standard output has two lines for each record:
    NAME: ANSWER
    ERASES COPIES BYTES MARKS DIGEST
ANSWER is a step as the simulator prints it, LAST and that step, BOOT and the number that UPDATE was passed over for, or
REFUSE and the number. The counters are those after the run, and DIGEST is the SHA-256 of the flash after it. The input
has at most 524,288 bytes and a flash at most 65,536."""
import struct
import sys
from pathlib import Path

if __name__ == "__main__":
    sys.path.insert(0, str(Path(__file__).resolve().parents[2]))
from model import board
from model.runner import run
from model.simulator import MOST_FLASH
from tests.vectors import runner_answers, runner_ends, runner_refusals, runner_updates
from tests.vectors.flash_case import digest
from tests.vectors.runner_case import agrees, kinds
from tests.vectors.stored import answer_text, check, each, kind_of, write

TOPICS = [runner_refusals, runner_updates, runner_answers, runner_ends]
CASES = [case for topic in TOPICS for case in topic.CASES]
# What runs answer that did no step, and those that did; of a step the letter.
ANSWERS = {
    False: each("REFUSE", 1, 2, 3, 4, *range(11, 19), 20, 28, 29, 30) | each("BOOT", 0, *range(11, 20), 30)
    | {*"ECBM", "LAST B"},
    True: each("REFUSE", *range(11, 19), 30) | {"BOOT 0", *"ECBM", "LAST B"},
}


def record(case):
    flash = case.flash or b""
    numbers = board.record(case.geometry, case.answers) + struct.pack("<6I", case.number, *case.counts, len(flash))
    return numbers + flash


def run_all():
    """Each case's outcome, and the flash before it."""
    outcomes, flash = [], None
    for case in CASES:
        flash = case.flash or flash
        assert len(flash) == case.geometry.length <= MOST_FLASH, case.name
        outcome = run(case.geometry, flash, board.signed(case.answers), case.number, case.counts)
        outcomes.append((flash, outcome))
        flash = outcome.flash
    return outcomes


def check_case(case, before, outcome):
    assert agrees(case.does, outcome.steps), f"{case.name}: {outcome.steps}"
    assert outcome.counts == tuple(map(sum, zip(case.counts, kinds(case.does)))), f"{case.name}: {outcome.counts}"
    leaves = case.leaves if outcome.steps else before
    assert leaves in (None, outcome.flash), f"{case.name}: another flash"


def check_outcomes(outcomes):
    """Each case does what it states, and each answer occurs."""
    for case, (before, outcome) in zip(CASES, outcomes):
        check_case(case, before, outcome)
    for done, expected in ANSWERS.items():
        seen = {kind_of(case.says) for case, (_, outcome) in zip(CASES, outcomes) if bool(outcome.steps) == done}
        assert seen == expected, (done, seen ^ expected)


def left_text(outcome):
    """The counters and the flash after a run."""
    return f"{' '.join(map(str, outcome.counts))} {digest(outcome.flash)}"


def main():
    outcomes = run_all()
    answers = [answer_text(outcome.answer) for _, outcome in outcomes]
    check(zip(CASES, answers))
    check_outcomes(outcomes)
    texts = [f"{answer}\n{left_text(outcome)}" for answer, (_, outcome) in zip(answers, outcomes)]
    write(CASES, texts, record, 524_288)


if __name__ == "__main__":
    main()
