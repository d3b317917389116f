"""Labels of sectors held to the bytes: one label for a sector of an image always means the same bytes, no two labels
mean the same, and what is called torn or other bytes is none of them."""
import re

WHOLE = re.compile(r"sector (\d+) of (.*)|(.*):(\d+)")
HALVES = re.compile("first half (.*), second half (.*)")


class Labels:
    def __init__(self):
        self.known, self.unknown, self.halves = {}, [], []

    def named(self, label, i):
        """The label without the number of the sector that it may give, and that number."""
        found = WHOLE.fullmatch(label)
        if found is None:
            return label, i
        return found[2] or found[3], int(found[1] or found[4])

    def claim(self, label, i, data):
        """This sector of a slot, or SWAP (None), is said to hold this."""
        halves, middle = HALVES.fullmatch(label), len(data) // 2
        assert (data == b"\xff" * len(data)) == (label == "blank"), label
        if label == "other bytes" or halves is not None:
            self.unknown.append((i, data))
        elif label != "blank":
            assert self.known.setdefault(self.named(label, i), data) == data, label
        for half, part in zip(halves.groups() if halves else (), (slice(middle), slice(middle, None))):
            self.halves.append((*self.named(half, i), part, data[part]))

    def check(self):
        """Once all claims are known."""
        for i in {i for _, i in self.known}:
            here = [data for (_, j), data in self.known.items() if j == i]
            assert len(set(here)) == len(here), (i, self.known.keys())
        for i, data in self.unknown:
            assert data not in [known for (_, j), known in self.known.items() if i in (None, j)], i
        for half in self.halves:
            self.check_half(*half)

    def check_half(self, label, i, part, data):
        if label == "blank":
            assert data == b"\xff" * len(data)
        elif label == "other bytes":
            assert data not in [known[part] for (_, j), known in self.known.items() if j == i]
        else:
            # A half may be the same in two sectors that are not.
            wholes = [self.known[name, i] for name in (label, *label.split(" and ")) if (name, i) in self.known]
            assert wholes and all(whole[part] == data for whole in wholes), (label, i)

    def are(self, name, sectors):
        """This name is for these sectors. Those that are blank or the same in both images have other labels."""
        for (label, i), data in self.known.items():
            assert label != name or data == sectors[i], (name, i)
        return sum(label == name for label, _ in self.known)
