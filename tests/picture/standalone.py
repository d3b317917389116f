"""Whether an SVG stands by itself: drawn shapes and text only, nothing fetched, nothing run."""
import re

TAGS = {"svg", "title", "desc", "style", "defs", "pattern", "g", "rect", "path", "text", "tspan"}


def check_standalone(text, root):
    assert root.tag == "{http://www.w3.org/2000/svg}svg" and root[0].text and root[1].text
    names = set()
    for element in root.iter():
        assert element.tag.removeprefix("{http://www.w3.org/2000/svg}") in TAGS, element.tag
        assert not any("href" in name or name.startswith("on") for name in element.attrib), element.attrib
        names.add(element.get("id"))
    used = set(re.findall(r"url\((.*?)\)", text))
    assert used <= {f"#{name}" for name in names} and "@import" not in text, used
    assert text.count("http") == 1, "the namespace only"
