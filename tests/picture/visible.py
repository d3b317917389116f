"""Whether what is seen in the SVG, colours and labels, says the same as the titles of the cells. Labels that don't fit
are left out, but not those of trailers and of SWAP."""
import re

from tests.picture.read_svg import SVG, named_cells

NUMBER = re.compile(r"sector (\d+) of ")


def kinds_of(root):
    """By the class of a sector's cell: what its title says, and its label. The legend has the images' names."""
    parts = list(root)
    boot, update = [parts[i + 1].text for kind in ("boot", "update") for i, part in enumerate(parts)
                    if part.tag == f"{SVG}rect" and part.get("class") == kind]
    return {"boot": (boot, boot), "update": (update, update), "same": (f"{boot} and {update}", "="),
            "blank": ("blank", "blank"), "other": ("other bytes", "?")}


def check_trailer(classes, label, text):
    kind = "blank" if text == "blank" else "open" if text.endswith("not closed") else "sound"
    assert classes == [kind] and label == text, (classes, label, text)


def check_flag(classes, label, text):
    assert classes == [f"flag{text[0]}" if text[0] in "F730" else "other"], (classes, text)
    assert label in (None, text[0]), (label, text)


def check_sector(classes, label, text, kinds, in_swap):
    """A torn sector has a class for each half, and no label."""
    titles, labels = zip(*[kinds[name] for name in classes])
    whole = titles[0] if len(titles) == 1 else f"first half {titles[0]}, second half {titles[1]}"
    assert NUMBER.sub("", text) == whole, (classes, text)
    number = NUMBER.match(text)
    right = f"{labels[0]}:{number[1]}" if number else labels[0]
    if len(classes) == 2:
        assert label is None, label
    else:
        assert label == right or label is None and not in_swap, (label, text)


def check_row(group, kinds):
    texts = [(float(part.get("x")), part.text) for part in group.findall(f"{SVG}text")]
    rects = [part for part in group.findall(f"{SVG}rect") if part.get("class") != "written"]
    titles = [part.find(f"{SVG}title") for part in rects]
    for i, (rect, title) in enumerate(zip(rects, titles)):
        if title is None:
            continue
        second = [part.get("class") for part, other in zip(rects[i + 1:i + 2], titles[i + 1:]) if other is None]
        classes, left, width = [rect.get("class"), *second], float(rect.get("x")), float(rect.get("width"))
        [label] = [text for x, text in texts if left <= x <= left + width] or [None]
        cells, text = named_cells(title.text)
        if cells[0].endswith("trailer"):
            check_trailer(classes, label, text)
        elif cells[0].startswith("flag"):
            check_flag(classes, label, text)
        else:
            check_sector(classes, label, text, kinds, cells == ["SWAP"])


def check_visible(root):
    kinds = kinds_of(root)
    for group in root.findall(f"{SVG}g[@class='row']"):
        check_row(group, kinds)
