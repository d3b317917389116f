"""One case of flash_cases: what is asked, and the answer that a reader of document 01 can write down."""
import hashlib
from dataclasses import dataclass

from model.flash import Geometry

# Document 01's geometry G.
G = Geometry(z=256, n=2, boot=0, update=768, swap=1536, length=1792)
# A free sector before and after every area.
GAPS = Geometry(z=256, n=1, boot=256, update=1024, swap=1792, length=2304)
THREE = Geometry(z=256, n=3, boot=0, update=1024, swap=2048, length=2304)
# The areas the other way round, and eight bytes after them.
TURNED = Geometry(z=256, n=2, boot=1024, update=256, swap=0, length=1800)
# As many sectors as fit a case's flash.
MOST = Geometry(z=256, n=14, boot=256, update=4352, swap=0, length=8192)


def hexed(text):
    return bytes.fromhex(text)


def laid_over(flash, patches):
    for place, data in patches:
        assert place + len(data) <= len(flash), place
        flash = flash[:place] + data + flash[place + len(data):]
    return flash


def digest(data):
    return hashlib.sha256(data).hexdigest()


@dataclass
class Case:
    name: str
    command: str
    says: str
    geometry: Geometry = G
    patches: tuple = ()
    kind: int = 0
    value: int = 0
    at: int = 0
    to: int = 0

    def flash(self):
        return laid_over(b"\xff" * self.geometry.length, self.patches)
