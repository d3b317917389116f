#!/usr/bin/env python3
"""Writes the files of the program loader_cases with the reference model, model/. The cases stand beside this file, with
the answers that document 01 states or that a reader of it can write down, and the model is held to those first.
Usage: loader.py stdin > crates/loader_cases/stdin, and loader.py stdout > crates/loader_cases/stdout"""
import struct
import sys
from pathlib import Path

if __name__ == "__main__":
    sys.path.insert(0, str(Path(__file__).resolve().parents[2]))
from model import board
from model.flash import carried_out
from model.loader import next_step
from model.requests import confirm, trigger
from model.runner import answered
from tests.vectors import (loader_boots, loader_calls, loader_geometries, loader_returns, loader_stories, loader_swaps,
                           loader_trailers, loader_updates)
from tests.vectors.stored import answer_text, check, each, kind_of, write

TOPICS = [loader_geometries, loader_boots, loader_updates, loader_swaps, loader_trailers, loader_returns, loader_calls,
          loader_stories]
CASES = [case for topic in TOPICS for case in topic.CASES]
GEOMETRY = each("REFUSE", 1, 2, 3, 4)
# What each call has to answer somewhere; of a step the letter.
ANSWERS = {
    "n": GEOMETRY | each("REFUSE", *range(11, 19), 20, 30) | each("BOOT", 0, *range(11, 20), 30) | {*"ECBM", "LAST B"},
    "t": GEOMETRY | each("REFUSE", 21, 22) | {*"EBM", "FINISHED"},
    "c": GEOMETRY | each("REFUSE", 22, 23) | {"B", "FINISHED"},
}


def record(case):
    """No flash is the one that the record before left."""
    call, flash = case.letter.encode("ascii"), case.flash or b""
    return call + board.record(case.geometry, case.answers) + struct.pack("<I", len(flash)) + flash


def asked(case, flash):
    call = case.letter.lower()
    if call == "n":
        return next_step(case.geometry, flash, board.signed(case.answers))
    return {"t": trigger, "c": confirm}[call](case.geometry, flash)


def outcome(case, flash):
    """The flash afterwards, and what the program prints after the name."""
    answer = answered(asked, case, flash)
    if case.letter.isupper() and answer.step is not None:
        flash = carried_out(case.geometry, flash, answer.step)
    return flash, answer_text(answer)


def answer_all():
    texts, flash = [], None
    for case in CASES:
        flash = case.flash or flash
        assert len(flash) == case.geometry.length, case.name
        flash, text = outcome(case, flash)
        texts.append(text)
    return texts


def check_calls():
    """Each call answers all that it can."""
    for call, expected in ANSWERS.items():
        seen = {kind_of(case.says) for case in CASES if case.letter.lower() == call}
        assert seen == expected, (call, seen ^ expected)


def main():
    texts = answer_all()
    check(zip(CASES, texts))
    check_calls()
    write(CASES, texts, record, 524_000)


if __name__ == "__main__":
    main()
