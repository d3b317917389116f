"""A picture read back from its SVG."""
import re
import xml.etree.ElementTree as ElementTree

from tests.picture.drawn import Drawn, Picture, fold_of

SVG = "{http://www.w3.org/2000/svg}"
ARROW = re.compile(r"M([0-9.]+) [^H]*H([0-9.]+)V")
TITLE = re.compile(r"(BOOT|UPDATE|flag of) sectors? (\d+)(?: to (\d+))?: (.*)|"
                   r"(BOOT's trailer|UPDATE's trailer|SWAP): (.*)")


def named_cells(title):
    """What a title names, each by itself, and what it says of them."""
    kind, first, last, text, other, other_text = TITLE.fullmatch(title).groups()
    if other is not None:
        return [other], other_text
    return [f"{kind} sector {i}" for i in range(int(first), int(last or first) + 1)], text


def under(at, spans):
    """The cell at this distance from the left."""
    [name] = [names[int((at - x) * len(names) / (width + 1))] for x, width, names in spans if x <= at <= x + width]
    return name


def svg_row(group):
    """The frame lies one outside the cell that was written; an arrow goes from the cell that was copied to that one."""
    texts = ["".join(text.itertext()).strip() for text in group.findall(f"{SVG}text")]
    number, words = (int(texts[0]), texts[1]) if texts[0].isdigit() else (0, texts[0])
    cells, spans = {}, []
    for rect in group.findall(f"{SVG}rect"):
        title, x, width = rect.find(f"{SVG}title"), float(rect.get("x")), float(rect.get("width"))
        if title is not None:
            names, text = named_cells(title.text)
            cells |= {name: text for name in names}
            spans.append((x, width, names))
        elif rect.get("class") != "written":
            # The second half of a torn cell.
            spans[-1] = (spans[-1][0], spans[-1][1] + width, spans[-1][2])
    frames = [float(rect.get("x")) + 1 for rect in group if rect.get("class") == "written"]
    arrows = [map(float, ARROW.match(path.get("d")).groups()) for path in group if path.get("class") == "arrow"]
    written = [names for frame in frames for x, _, names in spans if x == frame]
    copied = [under(start, spans) for start, end in arrows if [under(end, spans)] == written[0]]
    assert len(frames) == len(written) <= (number > 0), ElementTree.tostring(group)
    assert all(len(names) == 1 for names in written), ElementTree.tostring(group)
    return Drawn(number, words, cells, written[0][0] if written else None, copied[0] if copied else None)


def svg_legend(root):
    """Each label before the heading with the meaning after it."""
    texts = [(element.get("class"), element.text) for element in root if element.tag == f"{SVG}text"]
    before = texts[:[kind for kind, _ in texts].index("name")]
    return {(label, text) for (_, label), (kind, text) in zip(before, before[1:]) if kind == "words"}


def read_svg(root):
    """What comes after the first heading is no legend."""
    rows, between, headed = [], [(1, [])], False
    for element in root:
        kind = element.get("class")
        headed = headed or kind == "name"
        if kind == "row":
            rows.append(svg_row(element))
        elif kind == "fold":
            rows.append(fold_of(element.find(f"{SVG}text").text))
        elif headed and kind in ("loss", "left", "booted", "start", "words"):
            between += [(len(rows), [])] * (kind in ("loss", "booted"))
            between[-1][1].append(element.text)
    legend = {text: label for label, text in svg_legend(root)}
    return Picture(legend, rows, between[1:-1], between[-1][1])
