#!/usr/bin/env python3
"""The packing program against the reference model, model/: the whole output, for inputs at the edges of what it takes
and for random ones; files that cannot be read; and the stored run of the crate. The seed is printed, and SEED=..
repeats a run.
Usage: pack.py COMMAND"""
import os
import pty
import subprocess
import sys
import tempfile
from collections import Counter
from dataclasses import replace
from pathlib import Path

if __name__ == "__main__":
    sys.path.insert(0, str(Path(__file__).resolve().parents[2]))
from tests.chance import seeded
from tests.command.pack_inputs import BITS, Inputs, drawn, edges, expected

ROOT = Path(__file__).parent.parent.parent
DRAWN = 400
KINDS = {"printed", "written", "the version", "the timestamp", "the type", "the firmware", "the hint", "the signature",
         "REFUSE 12", "REFUSE 26", "REFUSE 27"}
SIGNED = Inputs(signature=bytes(range(64)))


def arguments(folder, inputs):
    """Stores the files of the inputs in a folder, and names them as the program wants it."""
    names = {}
    for name in ("firmware", "hint", "custom", "signature"):
        if getattr(inputs, name) is not None:
            names[name] = folder / name
            names[name].write_bytes(getattr(inputs, name))
    return [names["firmware"], *[getattr(inputs, name) for name in BITS], names["hint"], names.get("custom", "-"),
            *([names["signature"]] if "signature" in names else [])]


def run(command, *words, **more):
    return subprocess.run([command, *words], stdin=subprocess.DEVNULL, capture_output=True, **more)


def compare(command, folder, inputs):
    done, (output, said) = run(command, *arguments(folder, inputs)), expected(inputs)
    if (done.returncode, done.stdout, done.stderr.decode()) != (0, output, said):
        shown = replace(inputs, firmware=inputs.firmware[:16])
        sys.exit(f"FAILED, {len(inputs.firmware)} bytes of firmware, {shown}:\nexpected {output[:256]} {said}\n"
                 f"got {done.stdout[:256]} {done.stderr}")
    return "written" if inputs.signature and output else "printed" if output else " ".join(said.split()[:2])


def check_files(command, folder):
    """A file that can't be read, a wrong number of arguments, and output that can't be written."""
    words = arguments(folder, replace(SIGNED, custom=b""))
    faults = [(folder / "missing", b"missing: No such file"), (folder, b": Is a directory"), ("", b": No such file"),
              ("n" * 5000, b"the name of the file: File name too long")]
    cases = [([*words[:i], name, *words[i + 1:]], said) for i in (0, 4, 5, 6) for name, said in faults]
    cases += [((words * 2)[:count], b"usage: pack ") for count in (0, 1, 5, 8, 14)]
    for given, said in cases:
        done = run(command, *given)
        assert done.stdout == b"" and said in done.stderr, (given, done)
    with open("/dev/full", "wb") as full:
        done = subprocess.run([command, *words], stdout=full, stderr=subprocess.PIPE)
    assert done.stderr == b"standard output: No space left on device\n", done
    return len(cases) + 1


def check_terminal(command, folder):
    """A firmware that goes on behind its first end, as on a terminal, is too long; one that ends twice is taken."""
    inputs = Inputs(firmware=b"abc\n")
    words = arguments(folder, inputs)
    longer = replace(inputs, firmware=bytes(261889))
    for then, (output, said) in ((b"\x04", expected(inputs)), (b"d\n\x04\x04", expected(longer))):
        ours, theirs = pty.openpty()
        os.write(ours, inputs.firmware + b"\x04" + then)
        done = run(command, os.ttyname(theirs), *words[1:], timeout=60)
        assert (done.stdout, done.stderr.decode()) == (output, said), (then, done)
        os.close(ours)
        os.close(theirs)
    return 2


def check_stored():
    """What the crate's stored run prints is what the other implementation says of its arguments and files."""
    crate = ROOT / "crates/pack"
    firmware, version, timestamp, kind, *files = (crate / "args").read_text().split()
    files = [(crate / "data" / name).read_bytes() for name in (firmware, *files)]
    inputs = Inputs(files[0], version, timestamp, kind, *files[1:])
    assert expected(inputs) == ((crate / "stdout").read_bytes(), ""), inputs


def main():
    command = Path(sys.argv[1]).resolve()
    chance = seeded("packing program")
    seen = Counter()
    with tempfile.TemporaryDirectory(prefix="pack") as name:
        folder = Path(name)
        for inputs in (*edges(), *[drawn(chance) for _ in range(DRAWN)]):
            seen[compare(command, folder, inputs)] += 1
        assert set(seen) == KINDS, set(seen) ^ KINDS
        check_stored()
        others = check_files(command, folder) + check_terminal(command, folder)
    print(f"packing program: {sum(seen.values())} inputs and {others} other cases passed:", dict(sorted(seen.items())))


if __name__ == "__main__":
    main()
