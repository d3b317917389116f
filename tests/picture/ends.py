"""What has to be said of a power-up's end: how it boots, the refusal, why UPDATE was passed over, what comes next."""
from typing import NamedTuple

from model import header
from model.board import signed
from model.flash import BOOT, CLOSING, UPDATE, Geometry
from model.loader import next_step
from model.refusals import in_words
from model.runner import answered
from model.slots import flags, image

COMES_BACK = "unless it is confirmed, it is exchanged back at the next start"


class End(NamedTuple):
    """The simulator's last line, or CUT; the flash and the checker's answers then; whether the last step ended a
    swap."""
    line: str
    geometry: Geometry
    flash: bytes
    answers: int
    swapped: bool = False

    def trailer(self, slot):
        """The state where it is sound."""
        *_, state, a, b, c, d = self.flash[self.geometry.trailer(slot).start:self.geometry.trailer(slot).stop]
        return state if bytes((a, b, c, d)) == CLOSING else None

    def words(self):
        word, number = self.line.split()
        if word == "REFUSE":
            verdicts = [str(known) for known in (*range(11, 19), 30)]
            slot = "BOOT: " if number in verdicts else "UPDATE: " * (number == "20")
            return f"refused: {slot}{in_words(int(number))}"
        return f"boots version {number}{ {0x10: ' on trial', 0x00: ' confirmed'}.get(self.trailer(BOOT), '')}"

    def passed_over(self):
        """Where an update or a return comes up: UPDATE's verdict or, of an update, its version."""
        g, on_trial, staged = self.geometry, self.trailer(BOOT) == 0x10, self.trailer(UPDATE) == 0x70
        if not (set(flags(g, self.flash)) == {0xF} if staged else on_trial):
            return 0
        old, new = (image(g, self.flash, slot) for slot in (BOOT, UPDATE))
        number = header.verdict(new, signed(self.answers)[UPDATE])
        if number == 0 and not on_trial and header.version_or_none(old) is not None:
            return 19 if header.version(new) <= header.version(old) else 0
        return number

    def reasons(self):
        """After a swap none: what would be passed over at the next start decides whether that goes back."""
        number, due = self.passed_over(), answered(next_step, self.geometry, self.flash, signed(self.answers))
        assert due.kind != "BOOT" or due.number == number, (due, number)
        if self.swapped and self.line.startswith("BOOT"):
            assert (due.step is None) == (number > 0), (due, number)
            return [COMES_BACK if number == 0 else f"nothing to go back to in UPDATE: {in_words(number)}"]
        return [f"UPDATE passed over: {in_words(number)}"] if number else []
