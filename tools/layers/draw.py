"""Draws docs/layers.svg: the crates of crates.txt in layers, and under them the way of the data.

    python3 tools/layers/draw.py > docs/layers.svg
"""
import sys
from itertools import permutations, product

from crates import groups, resting, rows
from shapes import HEAD, STYLE, path, rect, text
from way import way

WIDTH, CHIP, TALL, ROW, SPACE = 900, 110, 28, 72, 122


def chip(kind, x, y, name):
    """A crate, around its middle."""
    return rect(kind, x - CHIP / 2, y - TALL / 2, CHIP, TALL) + text("code middle", x, y + 4, name)


def shortest(levels, edges, fixed, middle):
    """The order of the crates in each row by which their arrows go least to the side."""
    def placed(orders):
        return fixed | {name: middle + (i - (len(order) - 1) / 2) * SPACE for order in orders
                        for i, name in enumerate(order)}
    return min(map(placed, product(*map(permutations, levels))),
               key=lambda x: sum(abs(x[user] - x[name]) for user in edges for name in edges[user]))


def layers(loader, claims, edges, top):
    """The loader's crates and the claims about them; an arrow leaves a crate downward and ends on one that it needs."""
    edges = {name: edges[name] for name in [*loader, *claims]}
    row = rows(edges)
    levels = [[name for name in loader if row[name] == r] for r in range(max(row.values()) + 1)]
    x = shortest(levels, edges, {name: 464 for name in claims}, 206)
    y = {name: top + (max(row.values()) - row[name]) * ROW for name in row}
    if max(map(len, levels)) > 3 or len({(x[name], y[name]) for name in row}) < len(row):
        sys.exit("tools/layers/draw.py: four crates of the loader, or two claims, in one row: give them more room")
    for user in edges:
        for name in edges[user]:
            turn, end = y[user] + ROW - TALL / 2 - 1, y[name] - TALL / 2 - 1
            down = f"V{end:g}" if turn < end else ""
            yield path("arrow", f"M{x[user]:g} {y[user] + TALL / 2:g}L{x[name]:g} {turn:g}{down}")
    for name in row:
        yield chip("loader" if name in loader else "claim", x[name], y[name], name)


def listed(title, names, edges, y):
    """A group of programs: each crate, and beside it what it rests on."""
    yield rect("band", 536, y, 356, 30 + 32 * len(names))
    yield text("name", 548, y + 19, title)
    for i, name in enumerate(names):
        yield chip("program", 603, y + 42 + 32 * i, name)
        yield text("note", 664, y + 46 + 32 * i, ", ".join(edges[name]))


def page(found, bottom):
    edges = resting({name: known for group in found.values() for name, known in group.items()})
    (first, loader), (second, claims), *programs = found.items()
    yield text("title", 20, 34, "The crates in layers")
    yield text("note", 230, 34, "an arrow, or a name beside: rests on; what comes with another is left out")
    yield rect("band", 20, 50, 372, bottom - 50) + rect("band", 400, 50, 128, bottom - 50)
    yield text("name", 32, 69, first) + text("name", 409, 69, second)
    yield from layers(loader, claims, edges, 110)
    y = 50
    for title, names in programs:
        yield from listed(title, names, edges, y)
        y += 38 + 32 * len(names)
    yield from way(bottom + 36)


def main():
    found = groups()
    bottom = 42 + sum(38 + 32 * len(names) for names in list(found.values())[2:])
    height = bottom + 364
    size = f'width="{WIDTH}" height="{height}" viewBox="0 0 {WIDTH} {height}"'
    print(f'<svg xmlns="http://www.w3.org/2000/svg" role="img" {size}>')
    print("<title>Frondicare: the crates in layers, and the way from flash bytes to a step and back</title>")
    print(f"<style>{STYLE}</style>", HEAD, rect("page", 0.5, 0.5, WIDTH - 1, height - 1), sep="\n")
    print(*page(found, bottom), "</svg>", sep="\n")


if __name__ == "__main__":
    main()
