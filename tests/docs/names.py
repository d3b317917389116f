"""What the documents name, the paths, edits, definitions and functions, and what of it is in the tree."""
import re
import subprocess
from fnmatch import fnmatch
from pathlib import Path

ROOT = Path(__file__).resolve().parents[2]
ARCHITECTURE = "docs/ARCHITECTURE.md"
DOCUMENTS = ["README.md", "CONTRIBUTING.md", "CHANGELOG.md", ARCHITECTURE, "docs/RULES.md", "docs/DECISIONS.md",
             "docs/changes/README.md", "tests/README.md", "bench/RESULTS.md"]
OF_CRATES = [ARCHITECTURE, "docs/DECISIONS.md", "CHANGELOG.md"]
QUOTED = re.compile(r"`([^`\n]+)`")
PATH = re.compile(r"(?:[\w.*-]+/)+[\w.*-]*|[\w*-]+\.(?:md|txt|py|rt|rs|c|h|sh|svg|antt|diff)")
EDITS = re.compile(r"\bedits? (`\w+`(?:, `\w+`)*)")
WORD = re.compile(r"[\w'-]+")
BUILT = re.compile(r"target/|\./|rt |crates/[\w*]+/out\b")  # what is not tracked, and commands
SOURCES = ["crates/*.rt", "crates/*.antt", "*.edit", "include/*.h", "tests/rust/tests/*.rs", "commands/*.py"]


def read(path):
    return (ROOT / path).read_text(encoding="utf-8")


def tracked():
    command = ["git", "ls-files", "--cached", "--others", "--exclude-standard"]
    names = subprocess.run(command, cwd=ROOT, check=True, capture_output=True, text=True).stdout.splitlines()
    return [name for name in names if (ROOT / name).is_file()]


FILES = tracked()
PLACES = set(FILES) | {str(parent) for name in FILES for parent in Path(name).parents}


def is_there(path, document):
    """From the root; in documents that speak of crates, also from a crate's folders and without an ending."""
    starts = ["", "crates/", *(f"crates/*/{part}" for part in ("", "src/", "proofs/", "specs/"))]
    path = path.rstrip("/").replace("NAME", "*")
    wanted = [path] if document not in OF_CRATES else [s + path + end for s in starts for end in ("", ".antt")]
    return any(fnmatch(place, pattern) for pattern in wanted for place in PLACES)


def missing_paths():
    tops = {place.split("/")[0] for place in PLACES if "/" in place}
    for document in filter(PLACES.__contains__, DOCUMENTS):
        text = read(document)
        named = [word for word in QUOTED.findall(text) if PATH.fullmatch(word)]
        named += [word.rstrip(".") for word in PATH.findall(text) if word.split("/")[0] in tops]
        links = re.findall(r"\]\(([^)#]+)\)", text)
        named += [str((ROOT / document).parent.joinpath(link).resolve().relative_to(ROOT)) for link in links]
        for path in sorted(set(named)):
            if not BUILT.match(path) and not is_there(path, document):
                yield f"{document}: {path} does not exist"


def missing_headings():
    """A link to a heading of the same document, as GitHub names it."""
    for document in filter(PLACES.__contains__, DOCUMENTS):
        headings = re.findall(r"^#+ (.*)$", read(document), re.MULTILINE)
        there = {re.sub(r"[^\w -]", "", heading.lower()).replace(" ", "-") for heading in headings}
        for link in sorted(set(re.findall(r"\]\(#([^)]+)\)", read(document))) - there):
            yield f"{document}: no heading #{link}"


def in_column(title):
    """What the cells below a heading quote, in the tables of ARCHITECTURE."""
    place, found = None, set()
    for line in read(ARCHITECTURE).splitlines():
        cells = [cell.strip() for cell in line.strip("|").split("|")] if line.startswith("|") else []
        place = None if not cells else cells.index(title) if title in cells else place
        found.update(QUOTED.findall(cells[place]) if place is not None else [])
    return found


def edits():
    return in_column("Edit").union(*map(QUOTED.findall, EDITS.findall(read(ARCHITECTURE))))


def missing_edits():
    if not edits():
        yield f"{ARCHITECTURE} names no edit"
    there = {Path(name).stem for name in FILES if fnmatch(name, "crates/*/must-fail/*.edit")}
    for name in sorted(edits() - there):
        yield f"{ARCHITECTURE}: no edit {name}"


def missing_names():
    """What ARCHITECTURE quotes is a word of the sources, a name in crates/, or, of several words, a part of them."""
    text = " ".join(" ".join(read(name) for name in FILES if any(fnmatch(name, source) for source in SOURCES)).split())
    words = {part for name in FILES if name.startswith("crates/") for part in Path(name).with_suffix("").parts}
    words = words.union(WORD.findall(text), edits(), in_column("wrong loader"))
    for quoted in sorted(set(QUOTED.findall(read(ARCHITECTURE)))):
        if PATH.fullmatch(quoted) or BUILT.match(quoted):
            continue
        parts = WORD.findall(f"frondicare{quoted}" if quoted.startswith("_") else quoted)
        if quoted not in text if " " in quoted else not words.issuperset(parts):
            yield f"{ARCHITECTURE}: `{quoted}` is in no source"
