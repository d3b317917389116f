#!/usr/bin/env python3
"""Writes the files of the program header_cases with the reference model, model/. The cases stand beside this file, with
the answers that document 01 states or that a reader of it can write down, and the model is held to those first.
Usage: header.py stdin > crates/header_cases/stdin, and header.py stdout > crates/header_cases/stdout"""
import struct
import sys
from pathlib import Path

if __name__ == "__main__":
    sys.path.insert(0, str(Path(__file__).resolve().parents[2]))
from model import header, writer
from model.refusals import Refused
from tests.vectors import header_lookups, header_verdicts, header_writes, stored

CASES = header_lookups.CASES + header_verdicts.CASES + header_writes.CASES
NUMBERS = [10, 11, 12, 13, 14, 15, 16, 17, 18, 25, 26, 27, 30, 31]


def record(case):
    flag, number = (case.any, case.start) if case.command == "L" else (case.signature_ok, case.buffer_length)
    head = struct.pack("<BBHIIIQHH", ord(case.command), flag, case.kind, len(case.body), len(case.custom), *case.fields,
                       number)
    parts = case.hint + case.signature if case.command in "DH" else b""
    return head + case.body + case.custom + parts


def accepted(case):
    """What the program prints after the name where nothing is refused."""
    if case.command == "F":
        return "{} {}".format(*header.find(case.body, case.kind))
    if case.command == "L":
        return "{} {} {} {}".format(*header.find_from(case.body, case.start, None if case.any else case.kind))
    if case.command == "W":
        return header.view(case.body, case.kind).hex()
    if case.command == "V":
        header.verify(case.body, case.signature_ok)
        return "PASS"
    if case.command == "N":
        return str(header.version(case.body))
    if case.command == "D":
        return writer.digest_to_sign(case.fields, case.body, case.custom, case.hint).hex()
    buffer = writer.write(case.buffer_length, case.fields, case.body, case.custom, case.hint, case.signature)
    return f"0 {buffer.hex()}"


def answer(case):
    """The number, and what the program prints after the name."""
    try:
        return 0, accepted(case)
    except Refused as refused:
        number = refused.number
        return number, f"{number} {'a5' * case.buffer_length}" if case.command == "H" else f"REFUSE {number}"


def main():
    numbers, texts = zip(*map(answer, CASES))
    stored.check((case, text) for case, text in zip(CASES, texts) if case.says is not None)
    assert set(numbers) == {0, *NUMBERS}, numbers
    stored.write(CASES, texts, record, 131_000)


if __name__ == "__main__":
    main()
