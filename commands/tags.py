"""Lists the tags of a header: type, content's place and length in decimal, one tag a line, in their order, repeated
ones too. The last line is END where the list is whole; else it is a number, the reason goes to standard error, and the
status is 1. Of a longer file, such as an image, the first 256 bytes count. Nothing is verified."""
import subprocess
import sys

from commands.header_words import NAMES, content_text
from commands.inputs import contents, told
from commands.programs import built
from model.header import DIGEST, SIGNATURE
from model.refusals import in_words

HELP = "the tags of an image's header"
EXAMPLES = """examples:
  ./frondicare tags crates/verify/data/image
  ./frondicare tags --explain crates/verify/data/image"""


def options(parser):
    parser.add_argument("file", metavar="FILE", nargs="?", default="-", help="standard input where it is left out or -")
    parser.add_argument("--explain", action="store_true",
                        help="types in hexadecimal and by name; whether the digest covers each tag, that is, whether "
                        "it starts before the first digest tag (- for that one and for signatures); contents")


def listed(data):
    """Each tag's type, content's place and length; and the number with which the list ends, 0 where it is whole. By the
    program, whose lookups are proved."""
    done = subprocess.run([built("tags")], input=data, stdout=subprocess.PIPE, check=True)
    *tags, end = done.stdout.decode("ascii").splitlines()
    return [tuple(map(int, line.split())) for line in tags], 0 if end == "END" else int(end)


def covered(tags):
    """Of each tag, whether the digest covers it: no behind the first digest tag, or where there is none, so that
    anybody may have put it there. Of that digest and of signatures it is not asked."""
    first = min((at for kind, at, _ in tags if kind == DIGEST), default=0)
    return {(kind, at, length): "-" if kind == SIGNATURE or at == first else "yes" if at < first else "no"
            for kind, at, length in tags}


def explained(data, tags):
    """A line for each tag, under a line with the names of the columns."""
    yield "type    place  length  covered  name           content"
    for (kind, at, length), word in covered(tags).items():
        text = content_text(kind, data[at:at + length])
        yield f"0x{kind:04x}  {at:5}  {length:6}  {word:7}  {NAMES.get(kind, 'custom'):13}  {text}"


def run(given):
    data = contents(given.file)
    tags, number = listed(data)
    lines = explained(data, tags) if given.explain and tags else (f"{kind} {at} {length}" for kind, at, length in tags)
    print(*lines, number or "END", sep="\n")
    if number:
        print(f"./frondicare tags: {told(given.file, f'refused: {in_words(number)}')}", file=sys.stderr)
    return 1 if number else 0
