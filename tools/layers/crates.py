"""crates.txt: its groups, what each crate knows, and what it rests on."""
from pathlib import Path

ROOT = Path(__file__).resolve().parents[2]


def groups():
    """The crates under each comment, each with those of ours that it knows: {title: {crate: [..]}}."""
    found, title = {}, None
    for line in (ROOT / "crates.txt").read_text(encoding="utf-8").splitlines():
        if line.startswith("# "):
            title = line[2:]
        elif line:
            named, _, words = line.partition(":")
            found.setdefault(title, {})[named.split()[0]] = words.split()
    ours = {name for crates in found.values() for name in crates}
    return {title: {name: [word for word in words if word in ours] for name, words in crates.items()}
            for title, crates in found.items()}


def reached(known, name):
    """A crate and all that it is built on."""
    return {name}.union(*(reached(known, near) for near in known[name]))


def resting(known):
    """What each crate rests on: those that it knows, without those that another of them brings."""
    def needed(name, near):
        return not any(near in reached(known, other) for other in known[name] if other != near)
    return {name: [near for near in known[name] if needed(name, near)] for name in known}


def rows(edges):
    """The row of each crate, counted from the bottom: just below the lowest crate that rests on it."""
    def height(name):
        return 1 + max(map(height, edges[name]), default=-1)
    found = {}
    for name in sorted(edges, key=height, reverse=True):
        found[name] = min((found[user] - 1 for user in edges if name in edges[user]), default=height(name))
    return found
