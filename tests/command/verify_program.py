#!/usr/bin/env python3
"""The program behind ./frondicare verify against the reference model, model/: the whole output, for the stored cases'
images, for images at the edges of what it takes and for random ones, well formed and damaged; files that cannot be
read; and the stored run of the crate. The seed is printed, and SEED=.. repeats a run.
Usage: verify_program.py PROGRAM, and verify_program.py stdout > crates/verify/stdout"""
import subprocess
import sys
import tempfile
from collections import Counter
from pathlib import Path

if __name__ == "__main__":
    sys.path.insert(0, str(Path(__file__).resolve().parents[2]))
from model.header import HINT, TIMESTAMP, view
from tests.chance import seeded
from tests.command.verify_inputs import CUSTOM, MOST, drawn, edges, expected, number
from tests.vectors.header_verdicts import D, H, S, T, V, Y, image

ROOT = Path(__file__).parent.parent.parent
CRATE = ROOT / "crates/verify"
DRAWN = 500
ANSWERS = {"yes": True, "no": False}
# What occurs: each verdict; and of the headers that are read, what they hold.
KINDS = {"PASS", *[f"REFUSE {number}" for number in (*range(10, 19), 30)], "hint", "no hint", "hint of another length",
         "timestamp of 64 bits", "custom tags"}


def text(lines):
    return "".join(f"{line}\n" for line in lines).encode()


def kinds(data, lines):
    """What of KINDS an image and its output are."""
    yield lines[0]
    if len(lines) > 1:
        yield "hint" if len(lines) == 8 else "hint of another length" if view(data, HINT) else "no hint"
        yield from ["timestamp of 64 bits"] * (number(data, TIMESTAMP) >= 2 ** 32)
        yield from ["custom tags"] * (view(data, CUSTOM) != b"")


def run(program, *words, **more):
    done = subprocess.run([program, *words], capture_output=True, **({"stdin": subprocess.DEVNULL} | more))
    assert done.returncode == 0, done
    return done.stdout, done.stderr.decode()


def compare(program, path, data, word):
    path.write_bytes(data)
    lines, got = expected(data, ANSWERS[word]), run(program, path, word)
    if got != (text(lines), ""):
        sys.exit(f"FAILED, {len(data)} bytes, {data[:256].hex()}, {word}:\nexpected {lines}\ngot {got}")
    return kinds(data, lines)


def check_faults(program, folder):
    """Nothing is printed where a file can't be read or is too long, or where the words are others."""
    path, long = folder / "image", folder / "long"
    path.write_bytes(image(V, T, Y, D, S))
    long.write_bytes(image(V, T, Y, D, S).ljust(MOST + 1, b"\xff"))
    usage, neither = "usage: verify IMAGE yes|no\n", "the signature checker's answer is neither yes nor no\n"
    cases = [((folder / "missing", "yes"), f"{folder}/missing: No such file or directory\n"),
             ((folder, "yes"), f"{folder}: Is a directory\n"), (("", "no"), ": No such file or directory\n"),
             (("n" * 5000, "yes"), "the name of the file: File name too long\n"),
             *[((name, "yes"), f"the image is longer than {MOST} bytes\n") for name in (long, "/dev/zero")],
             *[((path, "yes", "yes")[:count], usage) for count in (0, 1, 3)], ((path, "yes", path, "yes"), usage),
             *[((path, word), neither) for word in ("", "y", "ye", "yes ", " yes", "yess", "yesno", "Yes", "YES", "n",
                                                    "no ", "nos", "No", "1", "true", "yes\n", "y" * 5000)],
             ((folder / "missing", "maybe"), neither)]
    for words, said in cases:
        got = run(program, *words)
        assert got == (b"", said), (words, got)
    return len(cases)


def check_pipe(program):
    """The largest image, which a pipe brings in pieces."""
    data = image(V, T, Y, H, D, S, firmware=bytes(range(256)) * 1023)
    got = run(program, "/dev/stdin", "no", stdin=None, input=data)
    assert got == (text(expected(data, False)), ""), got


def stored():
    """What the crate's stored run must print. Its image is the one that the packing program's stored run writes."""
    name, word = (CRATE / "args").read_text().split()
    data = (CRATE / "data" / name).read_bytes()
    assert data == (ROOT / "crates/pack/stdout").read_bytes()
    return text(expected(data, ANSWERS[word]))


def main():
    if sys.argv[1:] == ["stdout"]:
        sys.stdout.buffer.write(stored())
        return
    program = Path(sys.argv[1]).resolve()
    chance = seeded("verdict on an image")
    images = [(data, word) for data in edges() for word in ANSWERS]
    images += [(drawn(chance), chance.choice(("yes", "yes", "no"))) for _ in range(DRAWN)]
    with tempfile.TemporaryDirectory(prefix="verify") as name:
        seen = Counter(kind for data, word in images for kind in compare(program, Path(name) / "image", data, word))
        assert set(seen) == KINDS and min(seen.values()) >= 5, seen
        faults = check_faults(program, Path(name))
    check_pipe(program)
    assert stored() == (CRATE / "stdout").read_bytes()
    print(f"verdict on an image: {len(images)} images and {faults} faults passed:", dict(sorted(seen.items())))


if __name__ == "__main__":
    main()
