"""Standard inputs for the simulator: at the edges of what it takes, of the stored cases, and random boards."""
from dataclasses import replace

from model.board import record, signed
from model.flash import BOOT, SECTOR_SIZES, UPDATE, Geometry
from model.runner import LETTERS, run
from model.slots import flag_at
from tests.vectors import loader, runner
from tests.vectors.flash_case import laid_over
from tests.vectors.loader_case import BOTH, U70, G, filled, sound
from tests.vectors.loader_images import BROKEN, ONE, TWO, written

MOST = 65_536


def edges(random):
    """Few bytes, no flash, and flashes around 65,536 bytes. What follows the areas isn't read."""
    example, noise = record(G, BOTH) + filled(ONE, TWO, U70), random.randbytes(200_000)
    return [
        *[example[:n] for n in (0, 1, 4, 20, 22, 23, 24, 25, 279, 280, 1814, 1815, 1816)],
        *[noise[:n] for n in (1, 23, 24, 25, 1816, MOST + 24, MOST + 25)],
        *[example + noise[:n - len(example)]
          for n in (1817, MOST, MOST + 23, MOST + 24, MOST + 25, MOST + 256, 200_000)],
        *[bytes(n) for n in (23, 24, 48, MOST + 24, MOST + 25)],
        *[record(replace(G, **fault), BOTH) + noise[:MOST + more] for more in (0, 1)
          for fault in ({"z": 255}, {"n": 0}, {"swap": MOST - 128}, {"swap": MOST - 256}, {"swap": MOST},
                        {"boot": 768})],
    ]


def stored():
    """Each flash of the stored cases."""
    return [record(case.geometry, case.answers) + case.flash
            for case in (*loader.CASES, *runner.CASES) if case.flash is not None]


def geometry(random):
    """Areas in any order, touching or not, in a flash that may be longer."""
    z = random.choice((*SECTOR_SIZES, 256, 256, 256, 256, 256))
    n = random.randint(1, 5 if z == 4096 else 7)
    sizes, offsets, end = {"boot": n + 1, "update": n + 1, "swap": 1}, {}, 0
    for area in random.sample(list(sizes), 3):
        end += z * random.choice((0, 0, 1)) * (z < 4096)
        offsets[area], end = end, end + z * sizes[area]
    return Geometry(z=z, n=n, length=end + random.choice((0, 1, z // 2)), **offsets)


def disturbed(random, where):
    """One fault in the geometry. The length is the flash's own."""
    area = random.choice(("boot", "update", "swap"))
    return replace(where, **random.choice((
        {"z": random.choice((0, 128, where.z + 1, 8192, 2 ** 32 - 256))},
        {"n": random.choice((0, 65, 2 ** 32 - 1))},
        {area: getattr(where, area) + random.choice((1, where.z // 2))},
        {area: random.choice((where.length // where.z * where.z, 2 ** 32 - where.z))},
        {area: where.boot, "update": where.boot},
    )))


def sectors(random, where):
    """As many as a slot's image has, often of FF or of one value."""
    return b"".join(random.choice((random.randbytes(where.z), bytes([random.choice((0, 0x11, 0xFF))]) * where.z))
                    for _ in range(where.n))


def image(random, where):
    """Of any length; at times it doesn't pass."""
    room = where.z * where.n
    if room == 256 or random.random() < 0.15:
        return random.choice(list(BROKEN.values()))[:room]
    size = random.choice((1, room - 256, random.randint(1, room - 256)))
    firmware = sectors(random, where)[:size]
    return written(random.randint(0, 3), firmware)


def trailers(random, where):
    """BOOT mostly new, on trial or confirmed; UPDATE mostly triggered, at times with flags of any kind."""
    states = [(BOOT, random.choice(("FF", "10", "10", "00"))), (UPDATE, random.choice(("70", "70", "70", "30", "FF")))]
    patches = [sound(slot, state, where) for slot, state in states if random.random() < 0.85]
    if random.random() < 0.3:
        lowest = flag_at(where, where.n - 1)
        patches.append((lowest, bytes(random.choice((0x00, 0xFF, 0xF0, 0xF7, 0x30, 0x70))
                                      for _ in range(flag_at(where, 0) + 1 - lowest))))
    return patches


def torn(random, where, flash, answers):
    """What a cut leaves: some steps are done, and the sector that the next one writes holds any bytes."""
    outcome = run(where, flash, signed(answers), random.randint(0, 9 * where.n), (0,) * len(LETTERS))
    if outcome.answer.step is None:
        return outcome.flash
    letter, at, *to = outcome.answer.step
    target = {"E": at, "C": to[-1] if to else at}.get(letter)
    left = random.choice((b"\xff" * where.z, random.randbytes(where.z), outcome.flash[at:at + where.z // 2]))
    return outcome.flash if target is None else laid_over(outcome.flash, [(target, left)])


def board(random):
    where, answers = geometry(random), random.choice((0, 1, 2, 3, 3, 3, 3, 3, 3)) | random.getrandbits(30) << 2
    flash = random.choice((bytes([0xFF]) * where.length, random.randbytes(where.length)))
    patches = [(where.boot, image(random, where)), (where.update, image(random, where))]
    blank = [(where.trailer(slot).start, b"\xff" * where.z) for slot in (BOOT, UPDATE) if random.random() < 0.8]
    flash = laid_over(flash, [*patches, *blank, *trailers(random, where)])
    if random.random() < 0.5:
        flash = torn(random, where, flash, answers)
    if random.random() < 0.1:
        where = disturbed(random, where)
    return record(where, answers) + flash
