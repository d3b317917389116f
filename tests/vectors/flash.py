#!/usr/bin/env python3
"""Writes the files of the program flash_cases with the reference model, model/. The cases stand beside this file, with
the answers that document 01 states or that a reader of it can write down, and the model is held to those first.
Usage: flash.py stdin > crates/flash_cases/stdin, and flash.py stdout > crates/flash_cases/stdout"""
import struct
import sys
from pathlib import Path

if __name__ == "__main__":
    sys.path.insert(0, str(Path(__file__).resolve().parents[2]))
from model import flash, slots
from model.refusals import Refused
from model.simulator import step_text
from tests.vectors import flash_flags, flash_geometries, flash_steps, flash_trailers, stored
from tests.vectors.flash_case import digest

CASES = flash_geometries.CASES + flash_steps.CASES + flash_trailers.CASES + flash_flags.CASES
# The numbers that each command has to answer somewhere, beside 0.
NUMBERS = {"G": {1, 2, 3, 4}, "S": {1, 2, 3, 4, 24}, "R": {1, 2, 3, 4}, "P": {1, 2, 3, 4, 20}, "F": {1, 2, 3, 4},
           "T": set(), "I": set()}


def record(case):
    """Numbers, and what is laid over a flash of FF."""
    head = struct.pack("<BBH8Q", ord(case.command), case.kind, case.value, case.geometry.z, case.geometry.n,
                       case.geometry.boot, case.geometry.update, case.geometry.swap, case.geometry.length, case.at,
                       case.to)
    patches = b"".join(struct.pack("<HH", place, len(data)) + data for place, data in case.patches)
    return head + struct.pack("<H", len(patches)) + patches


def step_or_finished(step):
    return "FINISHED" if step is None else step_text(step)


def accepted(case):
    """What the program prints after the name where nothing is refused."""
    if case.command == "G":
        flash.check(case.geometry)
        return "OK"
    asked = case.geometry, case.flash()
    if case.command == "S":
        return f"0 {digest(flash.apply(*asked, case.kind, case.at, case.to, case.value))}"
    if case.command == "R":
        return step_or_finished(slots.renewal(*asked, case.kind, case.value))
    if case.command == "P":
        return str(slots.progress(*asked))
    if case.command == "F":
        return step_or_finished(slots.flag_step(*asked, case.at))
    if case.command == "T":
        return "YES" if slots.sound_with(*asked, case.kind, case.value) else "NO"
    image = slots.image(*asked, case.kind)
    return f"{len(image)} {digest(image)}"


def answer(case):
    """The number, and what the program prints after the name."""
    try:
        return 0, accepted(case)
    except Refused as refused:
        number = refused.number
        return number, f"{number} {digest(case.flash())}" if case.command == "S" else f"REFUSE {number}"


def check_numbers(answers):
    """Each command's numbers occur, and no flash is large."""
    for case in CASES:
        assert case.command == "G" or case.geometry.length <= 65_536, case.name
    for command, numbers in NUMBERS.items():
        seen = {number for case, (number, _) in zip(CASES, answers) if case.command == command}
        assert seen == {0} | numbers, (command, seen)


def main():
    answers = [answer(case) for case in CASES]
    texts = [text for _, text in answers]
    stored.check(zip(CASES, texts))
    check_numbers(answers)
    stored.write(CASES, texts, record, 262_144)


if __name__ == "__main__":
    main()
