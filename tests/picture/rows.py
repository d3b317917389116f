"""Whether the rows of a picture that was read back, and the lines between them, show what is expected."""
from model.flash import BOOT, CLOSING, UPDATE
from model.slots import flags
from tests.picture.drawn import Folded
from tests.picture.history import done
from tests.picture.labels import Labels

SLOTS = "BOOT", "UPDATE"
STATES = {0xFF: "new", 0x70: "updating", 0x10: "on trial", 0x00: "confirmed", 0x30: "spent"}
FLAGS = {0xF: "new", 0x7: "swapping", 0x3: "backup", 0x0: "updated"}


def sector_name(g, at):
    i = [area.start <= at < area.stop for area in g.areas()].index(True)
    number = (at - g.areas()[i].start) // g.z
    return "SWAP" if i == 2 else f"{SLOTS[i]}'s trailer" if number == g.n else f"{SLOTS[i]} sector {number}"


def written(g, row, before):
    """What a step writes, and its words."""
    letter, at, *other = row.step
    name = sector_name(g, row.places.start)
    if letter == "C":
        return name, f"copy {sector_name(g, at)} to {name}"
    if letter != "B":
        return name, f"{'erase' if letter == 'E' else 'close'} {name}"
    if at in (g.trailer(BOOT).stop - 5, g.trailer(UPDATE).stop - 5):
        return name, f"{name.removesuffix(' trailer')} state: {STATES[other[0]]}"
    after = flags(g, done(g.z, before, row.step))
    [i] = [i for i, flag in enumerate(flags(g, before)) if flag != after[i]]
    return f"flag of sector {i}", f"flag of sector {i}: {FLAGS[after[i]]}"


def mends(rows):
    """The numbers of the rows at which what a cut step owed is there, one for each cut; None where it never is."""
    return [next((m for m, row in enumerate(rows) if m >= k and row.flash[cut.places] == cut.due), None)
            for k, cut in enumerate(rows) if cut.cut]


def trailer_text(g, flash, slot, short):
    data = flash[g.trailer(slot).start:g.trailer(slot).stop]
    if data == b"\xff" * g.z:
        return ".." if short else "blank"
    state, sound = f"{data[-5]:02X}", data[-4:] == CLOSING
    if short:
        return state if sound else f"{state}?"
    return f"{state} {STATES.get(data[-5], 'unknown')}" if sound else f"{state}, not closed"


def check_cells(g, flash, cells, labels, short):
    for i in range(g.n):
        for slot, start in ((BOOT, g.boot), (UPDATE, g.update)):
            labels.claim(cells[f"{SLOTS[slot]} sector {i}"], i, flash[start + i * g.z:start + (i + 1) * g.z])
    labels.claim(cells["SWAP"], None, flash[g.swap:g.swap + g.z])
    for i, flag in enumerate(flags(g, flash)):
        expected = f"{flag:X}" if short else f"{flag:X} {FLAGS.get(flag, 'unknown')}"
        assert cells[f"flag of sector {i}"] == expected, cells
    for slot in BOOT, UPDATE:
        assert cells[f"{SLOTS[slot]}'s trailer"] == trailer_text(g, flash, slot, short), cells
    assert len(cells) == 3 * g.n + 3, cells


def is_mark(name, mark, short):
    """The text may have one mark for all flags, and for all sectors of a slot: then it is the name's beginning."""
    return mark == name or short and mark is not None and mark.endswith(" ") and name.startswith(mark)


def check_step(g, row, shown, before, mended, short):
    name, words = written(g, row, before)
    assert shown.words == words + ", mended" * mended, (shown.words, words)
    if row.cut and row.step[0] in "BM":
        assert shown.written is None, shown
    else:
        assert is_mark(name, shown.written, short), (shown, name)
    assert short or shown.copied == (sector_name(g, row.step[1]) if row.step[0] == "C" else None), shown
    return name


def check_rows(expected, items, drawn, short):
    """short: as the text has them. The labels, for what else is said of the sectors."""
    g, labels, mended = expected.geometry, Labels(), mends(expected.rows)
    assert len(drawn) == len(items), (len(drawn), len(items))
    for item, shown in zip(items, drawn):
        assert isinstance(shown, Folded) == (item.fold is not None), (shown, item)
        if item.fold is not None:
            assert shown == item.fold, (shown, item)
            continue
        [m] = item.rows
        row = expected.rows[m]
        check_cells(g, row.flash, shown.cells, labels, short)
        assert shown.number == row.number, shown
        if row.step is None:
            assert shown.words == "as found" and shown.written is None and shown.copied is None, shown
            continue
        name = check_step(g, row, shown, expected.rows[m - 1].flash, m in mended and not row.cut, short)
        check_swap(g, row, name, labels.named(shown.cells["SWAP"], None)[1])
    return labels


def check_swap(g, row, name, shown):
    """Of equal sectors SWAP is said to hold the one that was copied."""
    if row.step[0] == "C" and name == "SWAP" and not row.cut and shown is not None:
        assert sector_name(g, row.step[1]).endswith(f" sector {shown}"), (row.step, shown)
