"""Prints the SHA-256 digest of a file or of standard input, as 64 hexadecimal digits."""
import subprocess

from commands.failure import Failed
from commands.inputs import opened, told
from commands.programs import built
from model.refusals import in_words

HELP = "the SHA-256 digest of a file"
EXAMPLES = """examples:
  ./frondicare digest README.md
  git archive HEAD | ./frondicare digest"""


def options(parser):
    parser.add_argument("file", metavar="FILE", nargs="?", default="-", help="standard input where it is left out or -")


def run(given):
    with opened(given.file) as file:
        done = subprocess.run([built("digest")], stdin=file, stdout=subprocess.PIPE, text=True)
    word, *number = done.stdout.split() or [""]
    if word == "REFUSE":
        raise Failed(f"refused: {in_words(int(number[0]))}")
    if word == "":
        raise Failed(told(given.file, "it cannot be read"))
    print(word)
    return 0
