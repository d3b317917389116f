#!/usr/bin/env python3
"""Holds docs/RULES.md to the tree: the sections that comments name are there, its numbers are those that C gets, in the
same words and each with a name, the files and definitions that it names exist, and the simulator's example is the
stored one."""
import re
import sys
from pathlib import Path

ROOT = Path(__file__).resolve().parents[2]
SEARCHED = ["crates", "tests", "include", "docs", "picture", "commands", "examples", "bench", "tools", "frondicare",
            "README.md"]
# What begins a line of a comment or of a table.
MARKERS = re.compile(r"\n[ \t]*(?://[/!]?|--|\*|#|\|)?[ \t]*")
# From the paper's name to the end of the clause; the dot in a file's name doesn't end one.
NAMING = re.compile(r"\b(?:document 01|the paper's table)\b([^:;]*?)(?:[:;]|\.(?!\w)|$)", re.IGNORECASE)
# A section begins with a capital; other words of the paper may be quoted too.
QUOTED = re.compile(r'"([A-Z][^"]*)"')


def read(path):
    return (ROOT / path).read_text()


def read_if_there(path):
    return read(path) if (ROOT / path).is_file() else ""


def headings(text):
    return re.findall(r"^##+ (.*)$", text, re.MULTILINE)


def searched_files():
    paths = [path for top in SEARCHED for path in [ROOT / top, *(ROOT / top).rglob("*")]]
    return sorted(path.relative_to(ROOT) for path in paths if path.is_file())


def named_sections(path):
    """The sections of document 01 that a file names; a comment may go over several lines."""
    try:
        text = MARKERS.sub(" ", read(path))
    except UnicodeDecodeError:
        return []
    return [name for clause in NAMING.findall(text) for name in QUOTED.findall(clause)]


def check_sections(rules):
    """A comment may name a section by its first words."""
    named = [(path, name) for path in searched_files() for name in named_sections(path)]
    if not named:
        yield "no file names a section"
    for path, name in named:
        if not any(heading.startswith(name) for heading in headings(rules)):
            yield f'{path} names "{name}", which is no section'


def numbers_in(text):
    """Those of a list such as 14, 15, 16 or 11 to 18."""
    bounds = [list(map(int, part.split(" to "))) for part in text.split(", ")]
    return {number for bound in bounds for number in range(bound[0], bound[-1] + 1)}


def numbers_given_back(rules):
    """The rows of the table: a number, what it is in words, and when it is given."""
    section = rules.split("\n## Numbers given back\n")[1].split("\nThe first that applies")[0]
    rows = re.findall(r"^\| (\d+) \| ([^|]*) \| (.*) \|$", section, re.MULTILINE)
    return [(int(number), words, when) for number, words, when in rows]


def check_numbers(rules):
    """In the C header a number has a colon behind it, and 0 is no refusal."""
    listed = {number for number, _, when in numbers_given_back(rules) if "simulator only" not in when}
    header = MARKERS.sub(" ", read("include/frondicare.h"))
    told = set().union(*map(numbers_in, re.findall(r"\b(\d+(?:(?:, | to )\d+)*): ", header))) - {0}
    yield from (f"include/frondicare.h doesn't tell {number}" for number in sorted(listed - told))
    yield from (f"include/frondicare.h tells {number}, which is not in the table" for number in sorted(told - listed))


def check_words(rules):
    """Every number has its words and its name in C, and no other has, but for 0."""
    if "\n| No. | In words | When |\n" not in rules:
        yield "the table of numbers has other columns"
    said = {int(n): words for n, words in re.findall(r'case (\d+): return "(.*)";', read("include/frondicare_words.h"))}
    named = re.search(r"\nenum frondicare_number \{\n(.*?)\n\};\n", read("include/frondicare.h"), re.DOTALL)[1]
    expected = sorted({0} | {number for number, *_ in numbers_given_back(rules)})
    if sorted(said) != expected:
        yield f"include/frondicare_words.h has words for {sorted(said)}, and the table has {expected}"
    if sorted(map(int, re.findall(r"\bFRONDICARE_\w+ = (\d+)\b", named))) != expected:
        yield f"include/frondicare.h: enum frondicare_number has other numbers than the table, {expected}"
    for number, words, _ in numbers_given_back(rules):
        if words != said.get(number):
            yield f"{number} in words: '{words}', and in include/frondicare_words.h '{said.get(number)}'"


def check_names(rules):
    """A definition belongs to the file named last before it, and a heading in quotes to DECISIONS just before it."""
    path = ""
    for name, behind in re.findall(r"`([^`]+)`([^`.]*)", " ".join(rules.split())):
        if "/" in name:
            path = name
            if not any(ROOT.glob(name.rstrip("/"))):
                yield f"there is no {name}"
        elif not re.search(rf"\bpub (?:record |data )?{re.escape(name)}(?![\w-])", read_if_there(path)):
            yield f"{path} doesn't define {name}"
        if name == "docs/DECISIONS.md":
            missing = set(QUOTED.findall(behind)) - set(headings(read_if_there(name)))
            yield from (f'{name} has no section "{heading}"' for heading in missing)


def check_example(rules):
    block = re.search(r"(?:^    [CEBM] .*\n)+", rules, re.MULTILINE).group()
    if re.split(r";\s+", block.strip()) != read("crates/simulator/stdout").splitlines():
        yield "the simulator's example is not crates/simulator/stdout"


def main():
    rules = read("docs/RULES.md")
    checks = check_sections, check_numbers, check_words, check_names, check_example
    wrong = [line for check in checks for line in check(rules)]
    print(*wrong or ["docs/RULES.md: what it names is there, and its numbers, words and example are right"], sep="\n")
    sys.exit(bool(wrong))


main()
