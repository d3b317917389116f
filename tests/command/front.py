#!/usr/bin/env python3
"""./frondicare: its help and the examples there, its version, exit statuses, what is told before anything is proved,
and what goes wrong around a command: closed and full streams, signals, links, things that are not installed."""
import os
import re
import shutil
import signal
import subprocess
import sys
import tempfile
import time
from pathlib import Path

if __name__ == "__main__":
    sys.path.insert(0, str(Path(__file__).resolve().parents[2]))
from tests.command.called import COMMAND, ROOT, STOPPING, Caller, hear_signals
from tests.command.installed import check_installed

COMMANDS = ["digest", "pack", "verify", "tags", "simulate", "explain", "picture"]
READING = ["digest", "simulate", "explain", "picture", "verify", "tags"]
BOARD = ROOT / "examples/board/update.bin"
PACK = ["pack", BOARD, "--version", "2", "--hint", ROOT / "crates/pack/data/hint"]


def check_help(caller):
    """Every command has examples, and these do what they say in the root of a clone, with nothing stood in for."""
    front = caller.said("--help")
    assert re.findall(r"^    (\w+)  ", front, re.MULTILINE) == COMMANDS and "exit status: 0" in front, front
    assert caller.said("-h") == front
    version = re.search(r'FRONDICARE_VERSION "(.*)"', (ROOT / "include/frondicare.h").read_text())[1]
    assert caller.said("--version") == f"frondicare {version}\n"
    for name in COMMANDS:
        text = caller.said(name, "--help")
        examples = re.findall(r"^  ((?:\S+ .*\| )?(?:openssl|\./frondicare) .*)$", text, re.MULTILINE)
        assert any(f"./frondicare {name} " in f"{line} " for line in examples), text
        for line in examples:
            done = caller.run("sh", "-c", line, cwd=ROOT, env=None)
            assert done.returncode == 0, (line, done)
        assert all(len(line) <= 80 for line in text.splitlines() if line.lstrip() not in examples), text


def check_usage(caller):
    """Status 2, and in words what is missing or too much."""
    cases = [("COMMAND", []), ("invalid choice: 'no'", ["no"]), ("--no", ["digest", "--no"]),
             ("two", ["digest", "one", "two"]), ("two", ["simulate", "one", "two"]), ("two", ["tags", "one", "two"]),
             ("BOARD", ["explain"]), ("BOARD", ["picture"]), ("IMAGE", ["verify"]), ("FIRMWARE, --version", ["pack"]),
             ("--version", ["pack", "firmware"]), ("FIRMWARE", ["pack", "--version", "2"]),
             ("--ver", ["pack", "--ver", "2", "firmware"]), ("--key", ["verify", "image", "--key"]),
             ("--key is given twice", ["verify", "image", "--key", "one", "--key", "two"]),
             ("--svg is given twice", ["picture", "board", "--svg", "one", "--svg", "two"]),
             ("verify: error: unrecognized arguments: two\n", ["verify", "one", "two"]),
             ("pack: error: unrecognized arguments: -k\n", ["pack", "--version", "2", "-k", "key", "firmware"])]
    caller.all_refused_at_once(2, cases)


def check_files(caller):
    """A missing file, a folder, a name that is none."""
    faults = [("missing", "missing: No such file"), (".", ".: Is a directory"), ("", "without a name: No such file"),
              ("n" * 5000, "File name too long"), ("missing/file", "missing/file: No such file")]
    if os.geteuid() != 0:
        faults.append(("/etc/shadow", "/etc/shadow: Permission denied"))
    caller.all_refused_at_once(1, [(text, [command, name]) for name, text in faults for command in READING])


def check_streams(caller):
    """Closed, full, and a pipe that nobody reads."""
    closed = [("standard input is closed", [command, "-"]) for command in READING]
    caller.all_refused_at_once(1, closed, preexec_fn=lambda: os.close(0))
    for words in (["digest", BOARD], ["simulate", BOARD], ["picture", BOARD], PACK, ["--help"], ["--version"]):
        with open("/dev/full", "wb") as full:
            done = caller.run(COMMAND, *words, capture_output=False, stdout=full, stderr=subprocess.PIPE)
        assert (done.returncode, done.stderr) == (1, "./frondicare: standard output: No space left on device\n"), done
        done = caller.run(COMMAND, *words, preexec_fn=lambda: os.close(1))
        assert (done.returncode, done.stderr) == (1, "./frondicare: standard output is closed\n"), done
        read, write = os.pipe()
        os.close(read)
        done = caller.run(COMMAND, *words, capture_output=False, stdout=write, stderr=subprocess.PIPE)
        os.close(write)
        assert (done.returncode, done.stderr) == (-signal.SIGPIPE, ""), done
    assert caller.shell('"$F" digest - 2>&- <&- ; echo $?').stdout == "1\n"
    digest = caller.said("digest", BOARD)
    assert caller.shell(f'"$F" digest {BOARD} <&- 2>&-').stdout == digest
    assert caller.shell(f'"$F" digest <(cat {BOARD})').stdout == digest
    # More than the simulator reads, without an end.
    for command in ("simulate", "simulate -"):
        done = caller.shell(f'"$F" {command} </dev/zero')
        assert (done.returncode, done.stdout) == (1, "REFUSE 5\n") and "(5)" in done.stderr, done


def check_links(caller):
    """Paths are the caller's, and the command finds its own."""
    link = caller.folder / "linked"
    link.symlink_to(COMMAND)
    shutil.copy(BOARD, caller.folder / "board")
    expected = caller.said("simulate", BOARD)
    for command in (link, "./linked"):
        done = caller.run(command, "simulate", "board")
        assert (done.returncode, done.stdout, done.stderr) == (0, expected, ""), done
    done = caller.run("../here/linked", "simulate", "./board", cwd=caller.folder)
    assert done.stdout == expected, done


def check_signals(caller, few):
    """While it proves, and while nobody sends what it is to read: it ends by the signal, with no word."""
    (few / "rt").write_text("#!/bin/sh\nexec sleep 60\n")
    (few / "rt").chmod(0o755)
    given = {"stdin": subprocess.PIPE, "stdout": subprocess.PIPE, "stderr": subprocess.PIPE,
             "env": {**os.environ, "PATH": f"{few}:{os.environ['PATH']}", "FRONDICARE_BUILT": ""},
             "preexec_fn": hear_signals}
    for number in STOPPING:
        commands = [subprocess.Popen([COMMAND, *words], **given)
                    for words in (["digest", BOARD], ["simulate"], ["pack", "-", "--hint", BOARD, "--version", "2"])]
        time.sleep(0.8)
        for command in commands:
            command.send_signal(number)
            said = b"".join(command.communicate())
            assert (command.returncode, said) == (-number, b""), (command.args, number, command.returncode, said)


def main():
    with tempfile.TemporaryDirectory(prefix="front") as name:
        caller, few = Caller(name), Path(name) / "few"
        few.mkdir()
        check_help(caller)
        check_usage(caller)
        check_files(caller)
        check_streams(caller)
        check_links(caller)
        check_installed(caller, few, BOARD)
        check_signals(caller, few)
    print(f"front: {caller.calls} calls passed")


if __name__ == "__main__":
    main()
