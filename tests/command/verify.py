#!/usr/bin/env python3
"""./frondicare verify: its verdict against the reference model's, with signatures by openssl; keys of every kind; and
what it says of an image. Its program has a test of its own, tests/command/verify_program.py."""
import os
import shutil
import sys
import tempfile
from concurrent.futures import ThreadPoolExecutor
from pathlib import Path

if __name__ == "__main__":
    sys.path.insert(0, str(Path(__file__).resolve().parents[2]))
from model.header import MARK, verdict
from model.refusals import in_words
from model.writer import digest_to_sign, tag, write
from tests.command.called import COMMAND, Caller
from tests.command.keys import hint, make_key, signature

FIRMWARE = b"valve firmware\n" * 100
STAMP = 1700000000


def image_by(folder, name, fields=(2, STAMP, 1), custom=b"", mark=None):
    """Signed by a key; with the hint of another, if that is named."""
    given = fields, FIRMWARE, custom, hint(folder, mark or name)
    return write(256, *given, signature(folder, name, digest_to_sign(*given))) + FIRMWARE


def flipped(image, at):
    return image[:at] + bytes([image[at] ^ 1]) + image[at + 1:]


def images(folder):
    """By name, with the number that the desk's key finds. The version's tag is at 8, the hint's at 34, the digest's at
    70, the signature's at 106."""
    good = image_by(folder, "desk")
    return {"good": (good, 0), "custom": (image_by(folder, "desk", custom=tag(0x34, b"\0\1")), 0),
            "dump": (good + b"\xff" * 100, 0), "longest": (good.ljust(262144, b"\xff"), 0),
            "foreign": (image_by(folder, "stranger"), 18), "disguised": (image_by(folder, "stranger", mark="desk"), 18),
            "bent": (flipped(good, 150), 18), "flipped": (flipped(good, 300), 17), "newer": (flipped(good, 12), 17),
            "no mark": (flipped(good, 0), 11), "cut": (good[:-1], 12), "short": (good[:255], 10), "empty": (b"", 10),
            "overlong": (good[:11] + b"\x01" + good[12:], 13), "bare": (MARK + good[4:8] + bytes(2000), 14),
            "two versions": (good[:34] + tag(1, bytes(4)) + b"\xff" * 28 + good[70:], 15),
            "short version": (good[:8] + tag(1, bytes(3)) + b"\xff" + good[16:], 16),
            "late version": (good[:8] + good[16:174] + good[8:16] + good[174:], 30),
            "late": (good[:8] + good[34:174] + good[8:34] + good[174:], 30),
            "late type": (good[:28] + good[34:106] + good[28:34] + good[106:], 30)}


def check_verdict(caller, words, name, n):
    done = caller.run(COMMAND, "verify", *words)
    *lines, last = done.stdout.splitlines()
    passes = "passes" if "--key" in words else "passes, if the signature is good"
    assert last == f"{name}: {f'refused: {in_words(n)}' if n else passes}", (words, done)
    assert (done.returncode, done.stderr) == (int(n != 0), ""), done
    assert bool(lines) == (n in (0, 17, 18, 30)), done


def check_verdicts(caller):
    """With the desk's key, public or private; and without a key, where the signature counts as good."""
    seen = {}
    with ThreadPoolExecutor(os.cpu_count()) as pool:
        for i, (name, (image, number)) in enumerate(images(caller.folder).items()):
            (caller.folder / name).write_bytes(image)
            bare = 0 if number == 18 else number
            for words, n in (([name, "--key", ("desk.pem", "desk.pub")[i % 2]], number), ([name], bare)):
                assert n == verdict(image, n != 18), name
                seen[pool.submit(check_verdict, caller, words, name, n)] = n
    assert {n for done, n in seen.items() if done.result() is None} == {0, *range(10, 19), 30}


def check_custom(caller):
    """Custom tags are listed, with those that stand between digest and signature or behind both; and a hint's place."""
    mark = "(not covered by the digest, so not signed) "
    good = image_by(caller.folder, "desk", custom=tag(0x34, b"\xdd\xcc") + tag(0xFF35, b"") + tag(0x34, b"\1\2\3\4\5"))
    digest = good.index(tag(3, good[93:125]))
    assert digest == 89
    added = good[:125] + tag(0x36, b"\2") + good[125:193] + tag(0x37, b"") + good[202:]
    moved = good[:53] + good[89:125] + good[53:89] + good[125:]
    for name, image in (("added", added), ("moved", moved)):
        (caller.folder / name).write_bytes(image)
    lines = caller.said("verify", "added", "--key", "desk.pub").splitlines()
    covered = ["custom     0x0034 ddcc", "custom     0xff35 empty", "custom     0x0034 0102030405"]
    assert [line for line in lines if line.startswith("custom")] == [
        *covered, f"custom     0x0036 {mark}02", f"custom     0x0037 {mark}empty"], lines
    lines = caller.run(COMMAND, "verify", "moved").stdout.splitlines()
    hints = [line for line in lines if line.startswith(("custom", "key hint"))]
    assert hints == [*covered, f"key hint   {hint(caller.folder, 'desk').hex()} {mark.rstrip()}"], lines
    assert "custom" not in caller.said("verify", "good")


def check_words(caller):
    """What an image is, for a person."""
    def said(name, *words):
        return dict(line.split(None, 1) for line in caller.run(COMMAND, "verify", name, *words).stdout.splitlines())
    whose = hint(caller.folder, "desk").hex()
    good = said("good", "--key", "desk.pub")
    assert good["version"] == "2" and good["type"] == "1" and good["firmware"] == f"{len(FIRMWARE)} bytes", good
    assert good["timestamp"] == f"{STAMP} (2023-11-14 22:13:20 UTC)" and good["signature"] == "by desk.pub", good
    assert good["key"] == f"hint   {whose}, that of desk.pub" and len(good["digest"]) == 64, good
    assert said("good")["signature"] == "not checked: no --key is given" and said("good")["key"] == f"hint   {whose}"
    foreign = said("foreign", "--key", "desk.pub")
    assert foreign["signature"] == "not by desk.pub" and foreign["key"].endswith(", not that of desk.pub"), foreign
    assert said("disguised", "--key", "desk.pub")["key"].endswith(", that of desk.pub")
    assert said("dump")["firmware"].endswith("; the 100 bytes behind it do not count")
    check_custom(caller)
    late = {"late": "version, timestamp, firmware type", "late version": "version", "late type": "firmware type"}
    for name, names in late.items():
        told = f"uncovered  {names}\n{name}: refused: {in_words(30)}\n"
        assert caller.run(COMMAND, "verify", name).stdout == told, name
    for stamp in (0, 946684799, 2 ** 64 - 1):
        (caller.folder / "image").write_bytes(image_by(caller.folder, "desk", (2, stamp, 0)))
        assert said("image")["timestamp"] == str(stamp), stamp
    with open(caller.folder / "good", "rb") as file:
        assert caller.said("verify", "-", "--key", "desk.pub", stdin=file).endswith("\nstandard input: passes\n")
    with open(caller.folder / "desk.pub", "rb") as file:
        assert "\nsignature  by standard input\n" in caller.said("verify", "good", "--key", "-", stdin=file)


def check_refused(caller):
    """Keys that are none or of another kind, before anything is proved; and an image that is too long."""
    cases = [("missing: No such file", "missing"), (".: Is a directory", "."), ("good: openssl finds no key", "good"),
             ("empty: openssl finds no key", "empty"), ("curve.pem: not an Ed25519 key", "curve.pem"),
             ("curve.pub: not an Ed25519 key", "curve.pub"), ("garbled: openssl finds no key", "garbled")]
    (caller.folder / "garbled").write_text((caller.folder / "desk.pub").read_text().replace("M", "N"))
    caller.all_refused_at_once(1, [(text, ["verify", "good", "--key", key]) for text, key in cases])
    caller.all_refused_at_once(2, [("- is given for more than one file", ["verify", "-", "--key", "-"])])
    (caller.folder / "long").write_bytes(images(caller.folder)["longest"][0] + b"\xff")
    caller.refused(1, "the image is longer than 262144 bytes", "verify", "long", "--key", "desk.pub")
    # What openssl does not do is told, and is no answer about the signature.
    real = shutil.which("openssl")
    (caller.programs / "openssl").write_text(f'#!/bin/sh\n[ "$1" = pkey ] && exec {real} "$@"\nexit 1\n')
    (caller.programs / "openssl").chmod(0o755)
    caller.refused(1, "openssl 3 is needed, and it failed", "verify", "good", "--key", "desk.pub")


def main():
    with tempfile.TemporaryDirectory(prefix="verify") as name:
        caller = Caller(name)
        make_key(caller.folder, "desk")
        make_key(caller.folder, "stranger")
        make_key(caller.folder, "curve", "-algorithm", "EC", "-pkeyopt", "ec_paramgen_curve:P-256")
        check_verdicts(caller)
        check_words(caller)
        check_refused(caller)
    print(f"verdict command: {caller.calls} calls passed")


if __name__ == "__main__":
    main()
