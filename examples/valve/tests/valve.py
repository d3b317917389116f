"""A valve as the tests drive it: a process for each command, and its flash as bytes in between."""
import os
import subprocess
import tempfile
from pathlib import Path
from typing import NamedTuple

from model.refusals import in_words

DONE, REFUSED, POWER_LOST, NOT_ENOUGH = 0, 1, 3, 4
UPDATING, SPENT, ON_TRIAL = 0x70, 0x30, 0x10
CLOSING = b"\x42\x4F\x4F\x54"
HEADER = 256


class Done(NamedTuple):
    """What a command did. The counts are of erases, copies, bytes and marks."""
    status: int
    text: str
    counts: tuple
    flash: bytes


class Valve:
    folder = tempfile.TemporaryDirectory()
    runs = 0

    def __init__(self, program):
        self.program = program
        self.under = os.environ.get("UNDER", "").split()
        numbers = subprocess.run([program, "geometry"], capture_output=True, check=True).stdout.split()
        self.sector, self.count, self.boot, self.update, self.swap, self.size = map(int, numbers)
        self.image_size = self.count * self.sector
        self.most_steps = 9 * self.count + 4

    def run(self, flash, *words, **settings):
        Valve.runs += 1
        file = Path(Valve.folder.name) / "flash"
        file.write_bytes(flash)
        done = subprocess.run([*self.under, self.program, file, *map(str, words)], capture_output=True, text=True,
                              env=os.environ | {name: str(value) for name, value in settings.items()}, timeout=60)
        assert done.stderr == "", done.stderr
        text, _, steps = done.stdout.rpartition("steps: ")
        counts = tuple(int(word) for word in steps.split() if word.isdigit())
        return Done(done.returncode, text.strip(), counts, file.read_bytes())

    def power_up(self, flash, steps=None, cut=None):
        """Of at most so many steps; or with power lost at a command to the flash, so many bytes of it done."""
        words = [] if steps is None else [steps]
        settings = {} if cut is None else {"LOSE_POWER_AT": cut[0], "BYTES_DONE": cut[1]}
        return self.run(flash, "power-up", *words, **settings)

    def image(self, flash, slot):
        return flash[slot:slot + self.image_size]

    def images(self, flash):
        return self.image(flash, self.boot), self.image(flash, self.update)

    def trailer(self, flash, slot):
        return flash[slot + self.image_size:slot + self.image_size + self.sector]

    def is_sound_with(self, flash, slot, state):
        return self.trailer(flash, slot)[-5:] == bytes([state]) + CLOSING

    def outside(self, flash):
        """What is not the loader's. Its areas lie one behind the other."""
        return flash[:self.boot], flash[self.swap + self.sector:]

    def new(self, chance):
        """Version 1 in BOOT, and anything in the rest of the flash: nobody relies on it."""
        image = self.image(self.run(b"", "new").flash, self.boot)
        noise = chance.randbytes(self.size)
        return noise[:self.boot] + image + noise[self.boot + len(image):]

    def stage(self, flash, version, length=None):
        """With as much firmware as there is room for, unless a length is given."""
        return says(self.run(flash, "stage", version, self.image_size - HEADER if length is None else length), "")


def refused(number):
    """What a command says that is refused with this number."""
    return f"refused: {in_words(number)}"


def says(done, text, status=DONE):
    """The flash after a command that says this."""
    assert (done.text, done.status) == (text, status), f"'{done.text}', {done.status}: not '{text}', {status}"
    return done.flash
