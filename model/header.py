"""Document 01's header, read, and the verdict on an image, with R-2 and R-4 of document 02."""
import hashlib
import struct

from model.refusals import Refused, refuse

VERSION, TIMESTAMP, DIGEST, HINT, SIGNATURE, FIRMWARE_TYPE = 0x0001, 0x0002, 0x0003, 0x0010, 0x0020, 0x0030
MANDATORY = {VERSION: 4, TIMESTAMP: 8, DIGEST: 32, SIGNATURE: 64, FIRMWARE_TYPE: 2}
# What the digest has to cover.
COVERED = (VERSION, TIMESTAMP, FIRMWARE_TYPE)
MARK = bytes.fromhex("57 4F 4C 46")


def walk(header, p=8):
    """Type, place of the content and length of each tag from a place on."""
    while p != 256:
        if header[p] == 0xFF:
            p += 1
            continue
        refuse(p + 4 > 256, 13)
        kind, length = struct.unpack_from("<HH", header, p)
        if kind == 0:
            return
        refuse(p + 4 + length > 256, 13)
        yield kind, p + 4, length
        p += 4 + length


def find_from(header, start, kind=None):
    """Lookup from a place on, of a type or of any: the tag's type, its content's place and length, and where the walk
    goes on."""
    refuse(len(header) < 256, 10)
    refuse(not 8 <= start <= 256, 31)
    for found, at, length in walk(header, start):
        if kind in (None, found):
            return found, at, length, at + length
    raise Refused(25)


def find(header, kind):
    """Lookup: the place and the length of the first content of this type."""
    return find_from(header, 8, kind)[1:3]


def listed(header):
    """Each tag's type, place and length, by lookups, each from where the last one goes on; and their last number."""
    tags, place = [], 8
    try:
        while True:
            *tag, place = find_from(header, place)
            tags.append(tuple(tag))
    except Refused as refused:
        return tags, refused.number


def view(header, kind):
    """Empty where the lookup is refused."""
    try:
        at, length = find(header, kind)
    except Refused:
        return b""
    return header[at:at + length]


def uncovered(tags):
    """What the digest has to cover and doesn't, where each stands once."""
    places = {found: at for found, at, _ in tags}
    return [kind for kind in COVERED if places[kind] > places[DIGEST]]


def check(image):
    """Numbers 10 to 16 and 30. Gives the firmware's size."""
    refuse(len(image) < 256, 10)
    refuse(image[:4] != MARK, 11)
    size = int.from_bytes(image[4:8], "little")
    refuse(size == 0 or 256 + size > len(image), 12)
    tags = list(walk(image))
    for kind, right in MANDATORY.items():
        lengths = [length for found, _, length in tags if found == kind]
        refuse(len(lengths) == 0, 14)
        refuse(len(lengths) > 1, 15)
        refuse(lengths[0] != right, 16)
    refuse(uncovered(tags), 30)
    return size


def version(image):
    check(image)
    return int.from_bytes(view(image, VERSION), "little")


def version_or_none(image):
    """None where the header fails one of the checks 10 to 16 and 30."""
    try:
        return version(image)
    except Refused:
        return None


def verify(image, signature_ok):
    size = check(image)
    at, length = find(image, DIGEST)
    digest = hashlib.sha256(image[:at - 4] + image[256:256 + size]).digest()
    refuse(digest != image[at:at + length], 17)
    refuse(not signature_ok, 18)


def verdict(image, signature_ok):
    """The number that the image is refused with; 0 where it passes."""
    try:
        verify(image, signature_ok)
    except Refused as refused:
        return refused.number
    return 0
