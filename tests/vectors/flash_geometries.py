"""Cases of the geometry's check."""
from dataclasses import replace
from itertools import permutations

from model.flash import SECTOR_SIZES, Geometry
from tests.vectors.flash_case import Case, G

TOP = 2 ** 64


def geometry(name, number, where):
    return Case(name, "G", f"REFUSE {number}" if number else "OK", where)


def changed(name, number, **numbers):
    """G with other numbers."""
    return geometry(name, number, replace(G, **numbers))


def in_a_row(z=256, n=2, order=("BOOT", "UPDATE", "SWAP"), start=0):
    """Areas one right behind the other, and no byte after them."""
    places, end = {}, start
    for area in order:
        places[area] = end
        end += z if area == "SWAP" else (n + 1) * z
    return Geometry(z, n, places["BOOT"], places["UPDATE"], places["SWAP"], end)


def each_order():
    cases = []
    for order in permutations(("BOOT", "UPDATE", "SWAP")):
        row, name = in_a_row(order=order), " ".join(order)
        high = in_a_row(order=order, start=TOP - 256 - 1792)
        last = {"BOOT": row.boot, "UPDATE": row.update, "SWAP": row.swap}[order[2]]
        nearer = {order[2].lower(): last - 256}
        cases += [
            geometry(f"{name} touch", 0, row),
            geometry(f"{name} one byte past the end", 3, replace(row, length=1791)),
            geometry(f"{name}, the last one sector nearer", 4, replace(row, **nearer)),
            geometry(f"{name} below 2^64", 0, high),
            geometry(f"{name} up to 2^64", 3, replace(in_a_row(order=order, start=TOP - 1792), length=TOP - 1)),
        ]
    return cases


# Document 01's bench cases, with the answers that it states.
BENCH = [
    geometry("G", 0, G),
    geometry("n 64", 0, in_a_row(n=64)),
    geometry("n 65", 2, in_a_row(n=65)),
    changed("SWAP at 1280", 4, swap=1280),
    changed("flash 1791", 3, length=1791),
]
SIZES = [
    *[geometry(f"z {z}", 0, in_a_row(z=z)) for z in SECTOR_SIZES],
    geometry("z 4096, n 64", 0, in_a_row(z=4096, n=64)),
    *[geometry(f"z {z}", 1, in_a_row(z=z)) for listed in SECTOR_SIZES for z in (listed - 1, listed + 1)],
    *[geometry(f"z {z}", 1, in_a_row(z=z)) for z in (1, 128, 768, 8192)],
    changed("z 0", 1, z=0),
    changed("z 2^32 + 256", 1, z=2 ** 32 + 256),
    changed("z 2^63", 1, z=2 ** 63, length=TOP - 1),
    changed("z 2^64 - 256", 1, z=TOP - 256),
    changed("z 2^64 - 1", 1, z=TOP - 1),
]
COUNTS = [
    geometry("n 0", 2, in_a_row(n=0)),
    geometry("n 1", 0, in_a_row(n=1)),
    geometry("n 63", 0, in_a_row(n=63)),
    geometry("n 258", 2, in_a_row(n=258)),
    changed("n 2^32 + 2", 2, n=2 ** 32 + 2),
    changed("n 2^56 - 1, whose slot wraps to 0 bytes", 2, n=2 ** 56 - 1),
    changed("n 2^56 + 2, whose slot wraps to G's", 2, n=2 ** 56 + 2),
    changed("n 2^64 - 1", 2, n=TOP - 1),
]
PLACES = [
    changed("BOOT at 1", 3, boot=1, update=1024, swap=1792, length=2048),
    changed("BOOT at 255", 3, boot=255, update=1024, swap=1792, length=2048),
    changed("UPDATE at 769", 3, update=769, swap=1792, length=2048),
    changed("UPDATE at 1023", 3, update=1023, swap=1792, length=2048),
    changed("SWAP at 1537", 3, length=2048, swap=1537),
    changed("SWAP at 1791", 3, length=2048, swap=1791),
    geometry("BOOT at 256 with z 512", 3, Geometry(512, 1, 256, 1536, 2560, 4096)),
    geometry("UPDATE at 1280 with z 512", 3, Geometry(512, 1, 0, 1280, 2560, 4096)),
    geometry("SWAP at 2304 with z 512", 3, Geometry(512, 1, 0, 1024, 2304, 4096)),
    geometry("SWAP at 2048 with z 4096", 3, Geometry(4096, 1, 4096, 12288, 2048, 32768)),
    changed("no flash", 3, length=0),
    changed("BOOT at the flash's end", 3, boot=1792),
    changed("UPDATE at the flash's end", 3, update=1792),
    changed("SWAP at the flash's end", 3, swap=1792),
    changed("BOOT one sector past the end", 3, boot=1792, swap=0, update=1024, length=2304),
    changed("UPDATE's trailer past the end", 3, update=1280, swap=768),
    changed("gaps between the areas", 0, boot=512, update=2048, swap=4096, length=9999),
    changed("offsets above 2^32", 0, boot=2 ** 32 + 768, swap=2 ** 33, length=2 ** 34),
    changed("flash of 2^32 + 1 bytes", 0, length=2 ** 32 + 1),
    changed("flash of 2^64 - 1 bytes", 0, length=TOP - 1),
    changed("SWAP 2^32 bytes past its place", 3, swap=2 ** 32 + 1536),
]
NEAR_TOP = [
    *[changed(f"{area.upper()} at 2^64 - {TOP - at}", 3, **{area: at})
      for area in ("boot", "update", "swap") for at in (TOP - 1, TOP - 256, TOP - 768)],
    geometry("BOOT at 2^64 - 4096 with z 4096, n 64", 3, replace(in_a_row(z=4096, n=64), boot=TOP - 4096)),
    changed("SWAP up to 2^64", 3, swap=TOP - 256, length=TOP - 1),
    changed("SWAP up to 2^64 - 256", 0, swap=TOP - 512, length=TOP - 256),
    changed("SWAP up to 2^64 - 256, in a flash one byte short", 3, swap=TOP - 512, length=TOP - 257),
    changed("BOOT up to 2^64", 3, boot=TOP - 768, length=TOP - 1),
    changed("BOOT up to 2^64 - 256", 0, boot=TOP - 1024, length=TOP - 256),
    changed("UPDATE up to 2^64", 3, update=TOP - 768, length=TOP - 1),
    changed("UPDATE up to 2^64 - 256", 0, update=TOP - 1024, length=TOP - 256),
]
OVERLAPS = [
    changed("all at 0", 4, boot=0, update=0, swap=0),
    changed("UPDATE at BOOT's second sector", 4, update=256),
    changed("UPDATE at BOOT's trailer", 4, update=512),
    changed("BOOT at UPDATE's second sector", 4, boot=256, update=0),
    changed("BOOT at UPDATE's trailer", 4, boot=512, update=0),
    *[changed(f"SWAP at {at}", 4, swap=at) for at in (0, 256, 512, 768, 1024)],
    changed("SWAP between, in UPDATE's first sector", 4, update=1024, swap=1024),
    changed("SWAP between, in BOOT's trailer", 4, update=1024, swap=512),
    changed("SWAP before, in BOOT's first sector", 4, boot=256, update=1024, swap=256),
    changed("SWAP between, touching both", 0, update=1024, swap=768),
]
ORDER = [
    changed("1 before 2", 1, z=255, n=0),
    changed("1 before 3", 1, z=257),
    changed("1 before 4", 1, z=128, boot=768),
    changed("2 before 3", 2, n=65, length=0),
    changed("2 before 4", 2, n=0, swap=0),
    changed("3 before 4, past the end", 3, update=0, length=1791),
    changed("3 before 4, unaligned", 3, update=255),
    changed("3 of SWAP before 4 of BOOT and UPDATE", 3, update=512, swap=1537, length=2048),
    changed("3 of BOOT before 4 of UPDATE and SWAP", 3, boot=1280, swap=768),
    changed("all numbers at once", 1, z=0, n=0, boot=1, update=1, swap=1, length=0),
]
CASES = BENCH + SIZES + COUNTS + PLACES + NEAR_TOP + OVERLAPS + each_order() + ORDER
