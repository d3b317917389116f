"""The way of the data from flash bytes to a step and back: what is done, by which function of which crate."""
import re
import sys

from crates import ROOT
from shapes import path, rect, text

# In columns from left to right: those of a column stand under each other.
READ = [
    [("geometry", "check_geometry", "flash")],
    [("trailers", "is_sound_with", "slots"), ("flags, progress", "progress", "slots")],
    [("header", "check", "header"), ("digest", "long_digest_of_two", "sha256"), ("verdict", "verify", "image")],
    [("order of decision", "next_step", "loader")],
]
# of next_step: refused, or a case of loader::Answer
ANSWERS = [("refusal", "-> Result<Answer, Refusal>"), ("boot", r"^    Boot\("), ("last step", r"^    LastStep\("),
           ("step", r"^    Step\(")]
DONE = [("carried out", "apply_step", "flash"), ("counted", "count_step", "runner")]


def check_names():
    """Every function and every case of the answer is there."""
    named = [(crate, rf"\bfn {function}\b") for part in [*READ, DONE] for _, function, crate in part]
    for crate, pattern in named + [("loader", pattern) for _, pattern in ANSWERS]:
        sources = "\n".join(file.read_text(encoding="utf-8") for file in (ROOT / "crates" / crate / "src").glob("*.rt"))
        if not re.search(pattern, sources, re.MULTILINE):
            sys.exit(f"tools/layers/way.py: no {pattern} in crates/{crate}/src")


def way(top):
    """From left to right what is read and decided, from right to left what is done."""
    check_names()
    wide, tall, step, middle = 138, 54, 62, top + 128
    low = middle + 126

    def box(x, y, what, function, crate):
        lines = (("name", what), ("code", function), ("note", f"in {crate}"))
        return rect("loader", x, y, wide, tall) + "".join(
            text(f"{kind} middle", x + wide / 2, y + 17 + 16 * i, line) for i, (kind, line) in enumerate(lines))

    def lent(y, *words):
        return rect("data", 28, y, 98, tall) + "".join(
            text("name middle", 77, y + 31 - 8 * (len(words) - 1) + 16 * i, line) for i, line in enumerate(words))

    yield text("title", 20, top, "From flash bytes to a step and back")
    yield lent(middle - 58, "flash bytes") + lent(middle + 4, "checker's", "two answers")
    yield path("arrow", f"M126 {middle}H143")
    for i, column in enumerate(READ):
        x, high = 150 + i * (wide + 24), step * len(column) - 8
        yield rect("band", x - 6, middle - high / 2 - 6, wide + 12, high + 12)
        yield path("arrow", f"M{x + wide + 6} {middle}h11")
        for j, part in enumerate(column):
            yield box(x, middle - high / 2 + step * j, *part)
    yield text("note middle", 543, top + 24, "where a decision asks")
    yield rect("band", 792, middle + 4, 92, 68)
    for i, (what, _) in enumerate(ANSWERS):
        yield rect("data", 798, middle - 60 + 34 * i, 80, 26) + text("name middle", 838, middle - 43 + 34 * i, what)
    yield path("back", f"M838 {middle + 72}V{low + 27}H{474 + wide + 1}")
    yield text("note", 640, low + 20, "on the target sector only")
    yield box(474, low, *DONE[0]) + path("back", f"M474 {low + 27}H{312 + wide + 1}")
    yield box(312, low, *DONE[1]) + path("back", f"M312 {low + 27}H16V{middle - 31}H27")
    yield text("note", 110, low + 20, "the flash, as it is now, is read again")
    yield text("note", 110, low + 42, "after a last step: boot")
