"""A refusal, with its number of document 01's table "Numbers given back", and the numbers in words."""
import re
from pathlib import Path

HEADER = Path(__file__).resolve().parents[1] / "include/frondicare_words.h"
WORDS = {int(number): text for number, text in re.findall(r'case (\d+): return "(.*)";', HEADER.read_text())}


class Refused(Exception):
    def __init__(self, number):
        super().__init__(number)
        self.number = number


def refuse(when, number):
    if when:
        raise Refused(number)


def in_words(number):
    return f"{WORDS[number]} ({number})"
