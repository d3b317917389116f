"""Stored cases: the files of a program over them, its standard input and the output it is held to."""
import sys

from model.simulator import step_text


def answer_text(answer):
    """As the programs print it."""
    if answer.step is None:
        return "FINISHED" if answer.kind == "FINISHED" else f"{answer.kind} {answer.number}"
    return ("LAST " if answer.kind == "LAST" else "") + step_text(answer.step)


def kind_of(text):
    """An answer's text, of a step without its numbers."""
    return text if text.startswith(("REFUSE", "BOOT", "FINISHED")) else text.rstrip(" 0123456789")


def each(word, *numbers):
    return {f"{word} {number}" for number in numbers}


def check(answers):
    """Each case answers what it states. Given are pairs of a case and its answer's text."""
    for case, text in answers:
        assert text == case.says, f"{case.name}: {text}, not {case.says}"


def print_file(files):
    """The one that the command line names."""
    if len(sys.argv) != 2 or sys.argv[1] not in files:
        sys.exit(f"usage: {sys.argv[0]} {' | '.join(files)}")
    sys.stdout.buffer.write(files[sys.argv[1]])


def write(cases, texts, record, most):
    """A case as the program reads it: the length of its name, the name, a record. It reads at most so many bytes."""
    names = [case.name for case in cases]
    assert len(set(names)) == len(names), [name for name in names if names.count(name) > 1]
    stdin = b"".join(bytes([len(case.name)]) + case.name.encode("ascii") + record(case) for case in cases)
    assert len(stdin) <= most, len(stdin)
    stdout = "".join(f"{case.name}: {text}\n" for case, text in zip(cases, texts, strict=True))
    print_file({"stdin": stdin, "stdout": stdout.encode("ascii")})
