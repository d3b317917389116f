"""The proved programs. Each is proved and built before it is used, where that has not been done since its last
change: rt knows."""
import os
import re
import shutil
import subprocess
import sys
import time
from pathlib import Path

from commands.failure import Failed

ROOT = Path(__file__).resolve().parents[1]
# Prints a line when nobody else proves here, then what rt says. rt builds a program only to run it: so it runs on
# nothing, and what it prints is let go.
UNDER_LOCK = '. tools/lock.sh && echo && exec tools/rt run "$0" 2>&1 >/dev/null'
BEGUN = re.compile(r"rt: chose --jobs \d+ for (\w+)$")
# What rt says where all is as it was.
UNCHANGED = "rt: nothing has changed since the last proved build"
# Where plain rt is at work in a crate, or in the same crate of another clone.
WAITING = re.compile(r"rt: .*\bwaiting for ")
# What it says of each proof that goes well, and of what it read.
NOISE = re.compile(r"rt: chose |logic /|(statements|library|crate|axioms) |only=|\w+ [^:]+(::[^:]+)+: proved")
NO_RT = 'rt, the command of the Rattle kit, is not on the PATH (README.md, "What it needs")'


def say(text):
    print(text, file=sys.stderr, flush=True)


def where(name):
    """rt ci and rt run leave a program beside its sources."""
    return ROOT / "crates" / name / "out" / name


def followed(name, lines):
    """None where rt gets so far as to run the program; else what it says. That something is proved is told: when it
    begins, and with each crate."""
    next(lines, "")
    if told := not where(name).exists():
        say(f"{name} is proved and built first, with all that it rests on: some minutes, once")
    crate, began, said = None, 0, []
    for line in map(str.rstrip, lines):
        if line.startswith("rt: running "):
            return None
        if WAITING.match(line):
            say(line)
            continue
        if not told and not line.startswith(UNCHANGED):
            say(f"{name} or something that it rests on has changed: it is proved and built again")
            told = True
        if begun := BEGUN.match(line):
            crate, began = begun[1], time.monotonic()
        elif crate and line.startswith("logic=proved "):
            say(f"{crate} is proved ({time.monotonic() - began:.0f} s)")
            crate = None
        elif not NOISE.match(line):
            said.append(line)
    return said


def prove(name):
    with subprocess.Popen(["sh", "-c", UNDER_LOCK, name], cwd=ROOT, stdin=subprocess.DEVNULL, stdout=subprocess.PIPE,
                          text=True, errors="replace") as rt:
        try:
            said = followed(name, rt.stdout)
            rt.stdout.read()  # of the program, nothing
        except BaseException:
            rt.terminate()
            raise
    if said is not None:
        raise Failed("\n".join([f"{name} is not proved. rt says:", *said[-40:]]))


def built(name):
    """The program's path. The gate says where rt ci has just built all programs: rt run knows only what it built
    itself, and would prove them once more."""
    if shutil.which("rt") is None:
        raise Failed(NO_RT)
    if os.environ.get("FRONDICARE_BUILT") != str(ROOT):
        prove(name)
    return where(name)
