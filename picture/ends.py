"""How a power-up ended that was not cut, why UPDATE was not taken, and what comes next. explain and picture say it in
the same words."""
from model.board import signed
from model.flash import BOOT, UPDATE
from model.loader import passed_over
from model.refusals import Refused, in_words
from model.slots import SPENT, SUCCESS, TESTING, sound_with, state_byte
from picture.words import STATES, refusal_text

COMES_BACK = "unless it is confirmed, it is exchanged back at the next start"


def end_text(power_up):
    word, number = power_up.end
    if word == "REFUSE":
        return refusal_text(number)
    g, flash, _ = power_up.board
    states = [STATES[state] for state in (TESTING, SUCCESS) if sound_with(g, flash, BOOT, state)]
    return " ".join([f"boots version {number}", *states])


def reasons(power_up):
    """One sentence or none. After the last step of a swap nothing was passed over: there the same rule tells whether
    the next start goes back."""
    g, flash, answers = power_up.board
    try:
        number = passed_over(g, flash, signed(answers))
    except Refused:
        return []
    swapped = power_up.rows and power_up.rows[-1].step == state_byte(g, UPDATE, SPENT)
    if power_up.end[0] == "BOOT" and swapped:
        return [COMES_BACK if number == 0 else f"nothing to go back to in UPDATE: {in_words(number)}"]
    return [f"UPDATE passed over: {in_words(number)}"] if number else []
