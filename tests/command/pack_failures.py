#!/usr/bin/env python3
"""./frondicare pack where something is wrong: what it says, before anything is proved where that can be, and that it
leaves the old image and nothing else."""
import os
import subprocess
import sys
import tempfile
import time
from pathlib import Path

if __name__ == "__main__":
    sys.path.insert(0, str(Path(__file__).resolve().parents[2]))
from model.writer import tag
from tests.command.called import COMMAND, STOPPING, Caller, hear_signals
from tests.command.keys import make_key

SHORT = ["pack", "firmware", "--version", "2"]
HINTED = [*SHORT, "--hint", "hint"]
SIGNED = [*HINTED, "--signature", "signature"]
FILES = {"firmware": bytes(9000), "hint": bytes(32), "signature": bytes(64), "short": bytes(31), "empty": b"",
         "long": bytes(261889), "longer": bytes(999999), "many": tag(0x31, bytes(79)), "own": tag(0x10, b""),
         "cut": b"\x31\x00\x01", "old": b"an old image"}


def check_usage(caller):
    """Status 2: what is missing, given twice or excludes something else is named."""
    cases = [("--key or --hint is missing", SHORT), ("--output is missing", SIGNED),
             ("--key or --signature is missing", [*HINTED, "--output", "new"]),
             ("--custom and --custom-tag", [*HINTED, "--custom", "empty", "--custom-tag", "1="]),
             ("--digest-out and --output", [*SIGNED, "--output", "new", "--digest-out", "new"]),
             ("--timestamp now", [*HINTED, "--timestamp", "now"]),
             ("--timestamp now", [*SIGNED, "--timestamp", "now", "--output", "new"]),
             ("nothing can be written", [*SIGNED, "--output", "-"]),
             ("nothing can be written", [*HINTED, "--digest-out", "-"]),
             ("more than one file", ["pack", "-", "--version", "2", "--hint", "-"]), ("--no", [*HINTED, "--no"]),
             ("unrecognized arguments: firmware", [*HINTED, "firmware"]), ("--hint", [*SHORT, "--hint"])]
    for option, bits in (("--version", 32), ("--timestamp", 64), ("--type", 16)):
        rest = ["pack", "firmware", "--hint", "hint", *([] if option == "--version" else ["--version", "2"]), option]
        cases += [(f"argument {option}: {text} is no number below 2^{bits}", [*rest, text])
                  for text in (str(2 ** bits), hex(2 ** bits), "0x", "1x", "9" * 5000)]
    cases += [("argument --custom-tag: ", [*HINTED, "--custom-tag", text])
              for text in ("", "1", "=00", "65536=00", "1=0", "1=0x00", "1=0 0", "1=é")]
    for option in ("--version", "--timestamp", "--type", "--hint", "--custom", "--key", "--signature", "--digest-out",
                   "--output"):
        cases.append((f"{option} is given twice", [*SHORT[:2], option, "1", option, "1"]))
    caller.all_refused_at_once(2, cases)


def check_files(caller):
    """Status 1, and nothing was proved: files that cannot be read or written, and keys of another kind."""
    cases = []
    for option in ("firmware", "--hint", "--custom", "--signature", "--key"):
        for name, text in (("missing", "missing: No such file"), (".", ".: Is a directory"), ("", "without a name")):
            words = [*SIGNED, "--custom", "empty", "--key", "desk.pem", "--output", "new"]
            words[words.index(option) + option.startswith("-")] = name
            cases.append((text, words))
    for name in ("taken", "missing/new", "pipe", "firmware/new", ""):
        cases += [(f"{name or 'without a name'}: ", [*words, name])
                  for words in ([*SIGNED, "--output"], [*HINTED, "--digest-out"])]
    cases += [(f"./{name}: it would be replaced", [*words, f"./{name}"])
              for words, name in (([*SIGNED, "--output"], "firmware"), ([*SIGNED, "--output"], "signature"),
                                  ([*SHORT, "--key", "desk.pem", "--output"], "desk.pem"),
                                  ([*HINTED, "--digest-out"], "hint"))]
    cases += [(f"{name}: not an Ed25519 key", [*SHORT, "--key", name])
              for name in ("montgomery.pem", "montgomery.pub", "rsa.pem", "rsa.pub")]
    cases += [(f"{name}: openssl finds no key there", [*SHORT, "--key", name]) for name in ("hint", "empty", "longer")]
    cases.append(("desk.pub: a public key", [*SHORT, "--key", "desk.pub", "--output", "new"]))
    caller.all_refused_at_once(1, cases)


def check_image(caller):
    """What the program refuses, with its number in words; and a full disk. Nothing is left, and the old image stays."""
    folder = caller.folder
    before = sorted(folder.iterdir())
    refusals = [("(12)", ["pack", "empty", *SIGNED[2:]]), ("longer than 261888", ["pack", "long", *SIGNED[2:]]),
                ("longer than 261888", ["pack", "longer", *SIGNED[2:]]), ("(26)", [*SIGNED, "--custom", "many"]),
                ("(27)", [*SIGNED, "--custom", "own"]), ("(27)", [*SIGNED, "--custom", "cut"]),
                ("(26)", [*SIGNED, "--custom-tag", "49=" + "00" * 79]),
                ("(27); pack --help", [*SIGNED, "--custom-tag", "0x10="]),
                ("hint is not of 32", [*SHORT, "--signature", "signature", "--hint", "short"]),
                ("hint: the signature is not of 64", [*SHORT, "--key", "desk.pub", "--signature", "hint"])]
    for image in ("new", "old"):
        caller.all_refused(1, [(text, [*words, "--output", image]) for text, words in refusals])
        # Copies of what is read have room, the image does not.
        done = caller.run("sh", "-c", 'ulimit -f 18 && exec "$@"', "sh", COMMAND, *SIGNED, "--output", image)
        assert done.returncode == 1 and done.stdout == "" and f"{image}: File too large" in done.stderr, done
        assert sorted(folder.iterdir()) == before and (folder / "old").read_bytes() == b"an old image", image


def check_stopped(caller):
    """A signal while it proves: what was laid out for the program is cleared away."""
    place = caller.folder / "place"
    place.mkdir()
    (caller.programs / "rt").write_text("#!/bin/sh\nexec sleep 60\n")
    for number in STOPPING:
        given = {**caller.environment, "TMPDIR": str(place)}
        with subprocess.Popen([COMMAND, *SIGNED, "--output", "new"], cwd=caller.folder, env=given,
                              stderr=subprocess.DEVNULL, preexec_fn=hear_signals) as command:
            while not [*place.glob("*/firmware")]:
                time.sleep(0.02)
            command.send_signal(number)
        assert command.returncode == -number and not os.listdir(place), (number, command.returncode)


def main():
    with tempfile.TemporaryDirectory(prefix="pack") as name:
        caller = Caller(name)
        make_key(caller.folder, "desk")
        make_key(caller.folder, "montgomery", "-algorithm", "X25519")
        make_key(caller.folder, "rsa", "-algorithm", "RSA", "-pkeyopt", "rsa_keygen_bits:1024")
        for file, data in FILES.items():
            (caller.folder / file).write_bytes(data)
        (caller.folder / "taken").mkdir()
        # In place of a device, which a mistake would replace for everybody.
        os.mkfifo(caller.folder / "pipe")
        check_usage(caller)
        check_files(caller)
        check_image(caller)
        check_stopped(caller)
    print(f"packing failures: {caller.calls} calls passed")


if __name__ == "__main__":
    main()
