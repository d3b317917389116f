"""An SVG page: its style, and shapes and text at places of it."""
import xml.etree.ElementTree as ElementTree

# Blue and orange are told apart by any eye; each kind has a pattern or a label too.
STYLE = """
text { font-family: sans-serif; font-size: 12px; fill: #1f2933; }
.page { fill: #fbfaf7; stroke: #d5d2c8; }
.band { fill: #efede6; }
.title { font-size: 18px; font-weight: bold; }
.name { font-size: 13px; font-weight: bold; }
.small { font-size: 10px; fill: #6b7280; text-anchor: middle; }
.number { fill: #6b7280; text-anchor: end; }
.label { font-family: monospace; font-size: 12px; text-anchor: middle; }
.flag { font-family: monospace; font-size: 10px; text-anchor: middle; }
.state { font-size: 11px; text-anchor: middle; }
.faint { fill: #8a877d; }
.light { fill: #ffffff; }
.boot { fill: #9cc9ee; }
.update { fill: url(#stripes); }
.same { fill: #c9c5d6; }
.blank { fill: #ffffff; stroke: #c9c6bb; }
.other { fill: url(#crosses); }
.sound { fill: #dcdad2; }
.open { fill: #ffffff; stroke: #6b7280; stroke-dasharray: 3 2; }
.flagF { fill: #ffffff; stroke: #c9c6bb; }
.flag7 { fill: #d3d0c6; }
.flag3 { fill: #98958b; }
.flag0 { fill: #3f3d38; }
.written { fill: none; stroke: #1f2933; stroke-width: 2; }
.tear { fill: none; stroke: #b3001b; stroke-width: 1.5; }
.arrow { fill: none; stroke: #1f2933; stroke-width: 1.3; }
.head { fill: #1f2933; }
.gap { fill: #fbfaf7; stroke: #8a877d; stroke-dasharray: 2 3; }
.cut { fill: #fbe3e1; }
.lost { fill: none; stroke: #b3001b; stroke-width: 2; }
.bolt { fill: #b3001b; }
.loss { fill: #b3001b; font-weight: bold; }
.booted, .start { font-weight: bold; }
.line { stroke: #1f2933; stroke-width: 1.5; }
.mended { fill: #00517d; font-weight: bold; }
"""
PATTERNS = [
    ("stripes", "#fac564", "M-2 2L2 -2M0 8L8 0M6 10L10 6", "#efac38"),
    ("crosses", "#ece9f2", "M0 0L8 8M8 0L0 8", "#aaa3bd"),
]


class Page:
    """What is drawn goes into the group that was opened last."""

    def __init__(self, title, description):
        self.root = self.group = ElementTree.Element("svg", xmlns="http://www.w3.org/2000/svg", role="img")
        self.add("title", text=title)
        self.add("desc", text=description)
        self.add("style", text=STYLE)
        self.patterns()
        self.background = self.add("rect", "page", x=0.5, y=0.5, rx=6)

    def add(self, tag, kind=None, text=None, parent=None, **attributes):
        """An element of a class."""
        given = {"class": kind} if kind else {}
        given |= {name: str(value) for name, value in attributes.items()}
        element = ElementTree.SubElement(self.group if parent is None else parent, tag, given)
        element.text = text
        return element

    def patterns(self):
        defs = self.add("defs")
        for name, ground, lines, colour in PATTERNS:
            tile = self.add("pattern", parent=defs, id=name, width=8, height=8, patternUnits="userSpaceOnUse")
            self.add("rect", parent=tile, width=8, height=8, fill=ground)
            self.add("path", parent=tile, d=lines, stroke=colour)

    def open(self, kind):
        self.group = self.add("g", kind, parent=self.root)

    def close(self):
        self.group = self.root

    def rect(self, kind, x, y, width, height, title=None):
        rect = self.add("rect", kind, x=x, y=y, width=width, height=height)
        if title is not None:
            self.add("title", text=title, parent=rect)

    def text(self, kind, x, y, text):
        return self.add("text", kind, text, x=x, y=y)

    def path(self, kind, places):
        self.add("path", kind, d=places)

    def zigzag(self, kind, x, y, width):
        """A broken line across the page."""
        teeth = "".join(f"l6 {-6 if i % 2 else 6}" for i in range(int(width // 6)))
        self.path(kind, f"M{x} {y}{teeth}")

    def bolt(self, x, y):
        self.path("bolt", f"M{x + 7} {y}l-7 9h5l-3 7l8 -10h-5l4 -6z")

    def finished(self, width, height):
        """The document, now that its size is known."""
        for element, more in ((self.root, 0), (self.background, -1)):
            element.attrib |= {"width": str(width + more), "height": str(height + more)}
        self.root.set("viewBox", f"0 0 {width} {height}")
        ElementTree.indent(self.root, " ")
        return ElementTree.tostring(self.root, encoding="unicode") + "\n"
