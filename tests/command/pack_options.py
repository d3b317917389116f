#!/usr/bin/env python3
"""./frondicare pack: its options and its keys. Digests and images are those of the reference model, model/, with
signatures by openssl."""
import os
import pty
import sys
import tempfile
import termios
import time
from pathlib import Path

if __name__ == "__main__":
    sys.path.insert(0, str(Path(__file__).resolve().parents[2]))
from model.writer import digest_to_sign, tag, write
from tests.command.called import COMMAND, Caller
from tests.command.keys import hint, make_key, openssl, signature

FIRMWARE = bytes(range(256)) * 36
CUSTOM = tag(0x34, bytes.fromhex("ddccbbaa")) + tag(0x8001, b"")
SHORT = ["firmware", "--version", "2"]


def lay_out(folder):
    """The files that the cases name."""
    make_key(folder, "desk")
    make_key(folder, "stranger")
    openssl("pkey", "-in", "desk.pem", "-aes256", "-passout", "pass:open", "-out", "closed.pem", folder=folder)
    for name, words in (("private", []), ("public", ["-pubout"])):
        openssl("pkey", "-in", "desk.pem", *words, "-outform", "DER", "-out", f"{name}.der", folder=folder)
    (folder / "both.pem").write_text((folder / "desk.pub").read_text() + (folder / "desk.pem").read_text())
    for name, data in (("firmware", FIRMWARE), ("custom", CUSTOM), ("hint", hint(folder, "desk")), ("empty", b""),
                       ("signature", bytes(64))):
        (folder / name).write_bytes(data)


def check_digests(caller):
    """Options in any order, numbers in both forms, custom tags in both ways, the hint from a file or from a key."""
    folder = caller.folder
    plain = digest_to_sign((2, 0, 0), FIRMWARE, b"", hint(folder, "desk")).hex() + "\n"
    whole = digest_to_sign((2 ** 32 - 1, 2 ** 64 - 1, 513), FIRMWARE, CUSTOM, hint(folder, "desk")).hex() + "\n"
    for words in (["--hint", "hint"], ["--key", "desk.pem"], ["--key", "desk.pub"], ["--key", "public.der"],
                  ["--key", "private.der"], ["--custom", "empty", "--key", "both.pem"]):
        assert caller.said("pack", *SHORT, *words) == plain, words
        assert caller.said("pack", *words, "--version", "0x2", "firmware") == plain, words
    fields = ["--timestamp", str(2 ** 64 - 1), "--type", "0x201", "--hint", "hint", "firmware", "--version",
              "0xFFffFFff"]
    for custom in (["--custom", "custom"], ["--custom-tag", "0x34=DDccBBaa", "--custom-tag", "32769="]):
        assert caller.said("pack", *fields, *custom) == whole, custom
    assert caller.said("pack", *SHORT, "--hint", "hint", "--digest-out", "binary") == plain
    assert (folder / "binary").read_bytes().hex() + "\n" == plain
    for name, words in (("firmware", ["-", "--version", "2", "--hint", "hint"]), ("hint", [*SHORT, "--hint", "-"]),
                        ("desk.pem", [*SHORT, "--key", "-"]), ("empty", [*SHORT, "--hint", "hint", "--custom", "-"])):
        with open(folder / name, "rb") as file:
            assert caller.said("pack", *words, stdin=file) == plain, words
    done = caller.shell('"$F" pack --version 2 --key <(cat desk.pub) <(cat firmware)')
    assert (done.stdout, done.stderr) == (plain, ""), done


def check_images(caller):
    """One step or two, byte for byte; a line says what was written."""
    folder, fields = caller.folder, (2, 1700000000, 1)
    named = [*SHORT, "--timestamp", "1700000000", "--type", "1", "--custom", "custom", "--output", "image"]
    made = signature(folder, "desk", digest_to_sign(fields, FIRMWARE, CUSTOM, hint(folder, "desk")))
    expected = write(256, fields, FIRMWARE, CUSTOM, hint(folder, "desk"), made) + FIRMWARE
    (folder / "made").write_bytes(made)
    for words, by in ((["--key", "desk.pem"], "signed by desk.pem"),
                      (["--key", "private.der"], "signed by private.der"),
                      (["--key", "desk.pub", "--signature", "made"], "signed by desk.pub"),
                      (["--key", "desk.pem", "--signature", "made"], "signed by desk.pem"),
                      (["--hint", "hint", "--signature", "made"], "not checked: there is no --key")):
        said = caller.said("pack", *named, *words)
        assert said.startswith("image: version 2, 9216 bytes of firmware, ") and said.endswith(f"{by}\n"), said
        assert (folder / "image").read_bytes() == expected, words
        (folder / "image").unlink()
    strange = ["--key", "stranger.pub", "--hint", "hint", "--signature", "made"]
    caller.refused(1, "by stranger.pub", "pack", *named, *strange)
    caller.refused(1, "by desk.pem", "pack", *named, "--key", "desk.pem", "--signature", "signature")
    assert not (folder / "image").exists()
    begun = int(time.time())
    caller.said("pack", *SHORT, "--timestamp", "now", "--key", "desk.pem", "--output", "image")
    stamp = int.from_bytes((folder / "image").read_bytes()[20:28], "little")
    assert begun <= stamp <= time.time(), stamp
    (folder / "real").mkdir()
    (folder / "link").symlink_to("real/image")
    caller.said("pack", *SHORT, "--key", "desk.pem", "--output", "link")
    assert (folder / "link").is_symlink() and (folder / "real/image").read_bytes()[256:] == FIRMWARE


def typed_in(caller, words, phrase):
    """The status and what is said on a terminal where the pass phrase is typed whenever it is asked for. In the end
    what is typed can be seen there."""
    child, terminal = pty.fork()
    if child == 0:
        os.chdir(caller.folder)
        os.execvpe("timeout", ["timeout", "--foreground", "20", *words], caller.environment)
    said = b""
    try:
        while data := os.read(terminal, 1000):
            said += data
            if said.endswith(b"pass phrase:"):
                # What is typed before openssl has turned off the echo is thrown away.
                time.sleep(0.3)
                os.write(terminal, phrase)
    except OSError:
        pass
    assert termios.tcgetattr(terminal)[3] & termios.ECHO, said
    os.close(terminal)
    return os.waitstatus_to_exitcode(os.waitpid(child, 0)[1]), said


def check_pass_phrase(caller):
    """Of an encrypted key, openssl asks for it on the terminal, once where it is right."""
    words = [COMMAND, "pack", *SHORT, "--key", "closed.pem", "--output", "image"]
    status, said = typed_in(caller, words, b"open\n")
    assert status == 0 and b"signed by closed.pem" in said and said.count(b"pass phrase:") == 1, said
    status, said = typed_in(caller, words, b"shut\n")
    assert status == 1 and b"the pass phrase is wrong" in said, said
    status, said = typed_in(caller, words, b"\x03")
    assert status not in (0, 1) and b"Traceback" not in said, (status, said)
    caller.all_refused_at_once(1, [("closed.pem: openssl finds no key there", words[1:])], start_new_session=True)


def main():
    with tempfile.TemporaryDirectory(prefix="pack") as name:
        caller = Caller(name)
        lay_out(caller.folder)
        check_digests(caller)
        check_images(caller)
        check_pass_phrase(caller)
    print(f"packing options: {caller.calls} calls passed")


if __name__ == "__main__":
    main()
