"""Random updates that demand 3 speaks of, and cuts that fall on steps which are there."""
from typing import NamedTuple

from model.board import record
from model.flash import UPDATE
from model.slots import flag_at
from tests.command.simulator_inputs import geometry, sectors
from tests.picture.history import expected
from tests.vectors.loader_case import BOTH, filled, sound
from tests.vectors.loader_images import written


class Update(NamedTuple):
    """The simulator's input, the images of BOOT and of UPDATE, and their versions."""
    data: bytes
    images: list
    versions: list


def firmware(random, where):
    """At most as long as the slot."""
    room = where.n * where.z - 256
    return sectors(random, where)[:random.choice((room, random.randint(1, room)))]


def patches(random, where):
    """UPDATE is triggered; SWAP may hold other bytes, and so may the last half of the flags where it is none."""
    given = [sound(UPDATE, "70", where)]
    if random.random() < 0.5:
        given.append((where.swap, random.randbytes(where.z)))
    if where.n % 2 and random.random() < 0.5:
        given.append((flag_at(where, where.n - 1), bytes([16 * random.randrange(16) + 15])))
    return given


def triggered_update(random):
    where = geometry(random)
    while where.n * where.z == 256:
        where = geometry(random)
    old = random.choice((1, 8, random.randint(0, 2000)))
    versions = [old, old + random.choice((1, random.randint(1, 2000)))]
    images = [written(version, firmware(random, where)) for version in versions]
    return Update(record(where, BOTH) + filled(*images, *patches(random, where), geometry=where), images, versions)


def in_mid_swap(random, update):
    """The same update as some step left it, whole or cut, but the last, which ends the swap."""
    rows = expected(update.data, cuts(random, update.data, 1, 1), 1).rows
    return update._replace(data=update.data[:24] + random.choice(rows[:-1]).flash)


def cuts(random, data, boots, most):
    """At most so many, 0 among them; each falls on a step of its power-up."""
    chosen = []
    for i in range(random.randint(0, most)):
        steps = expected(data, chosen, boots).steps()
        if i < len(steps):
            chosen.append(random.choice((0, random.randint(0, steps[i]), random.randint(0, steps[i]))))
    return chosen
