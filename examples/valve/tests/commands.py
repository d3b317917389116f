"""What each loader starts and refuses. No power is lost here."""
from model.refusals import in_words
from valve import DONE, HEADER, NOT_ENOUGH, REFUSED, Done, refused, says

NO_STEPS = (0, 0, 0, 0)
SIGNATURE = 110, 173  # its first and its last place, in a header without custom tags


def written(flash, at, data):
    return flash[:at] + data + flash[at + len(data):]


def changed(flash, at, length=1):
    return written(flash, at, bytes(byte ^ 1 for byte in flash[at:at + length]))


def check_untouched(valve, flash, words, text, status=DONE):
    """The command says this, without a step."""
    done = valve.run(flash, *words)
    assert done == Done(status, text, NO_STEPS, flash), done[:3]


def updated_and_returned(valve, chance):
    new = valve.new(chance)
    check_untouched(valve, new, ["power-up"], "boots version 1")
    staged = valve.stage(new, 2, chance.randrange(1, valve.image_size - HEADER))
    updated = says(valve.power_up(staged), "boots version 2, on trial")
    assert valve.images(updated) == valve.images(staged)[::-1], "exchanged"
    returned = says(valve.power_up(updated), "boots version 1, on trial")
    assert valve.images(returned) == valve.images(staged), "restored"
    assert valve.outside(returned) == valve.outside(new), "bytes outside the areas"


def confirmed(valve, chance):
    """Until then UPDATE has the image to return to, and nothing is staged there."""
    new = valve.new(chance)
    check_untouched(valve, new, ["confirm"], refused(23), REFUSED)
    updated = says(valve.power_up(valve.stage(new, 2)), "boots version 2, on trial")
    check_untouched(valve, updated, ["stage", 3, 1], refused(21), REFUSED)
    flash = says(valve.run(updated, "confirm"), "")
    check_untouched(valve, flash, ["power-up"], "boots version 2")
    check_untouched(valve, flash, ["confirm"], "")
    says(valve.power_up(valve.stage(flash, 3)), "boots version 3, on trial")


def passed_over(valve, chance):
    """UPDATE's firmware damaged, not signed, or of the same version."""
    new = valve.new(chance)
    staged = valve.stage(new, 2)
    boards = [(changed(staged, valve.update + HEADER), 17), (valve.stage(new, 1), 19)]
    boards += [(changed(staged, valve.update + at), 18) for at in SIGNATURE]
    for flash, number in boards:
        check_untouched(valve, flash, ["power-up"], f"boots version 1, update passed over: {in_words(number)}")


def check_not_triggered(valve, flash, number):
    """What was received is refused with this number, and no update is considered."""
    check_untouched(valve, flash, ["trigger"], refused(number), REFUSED)
    check_untouched(valve, flash, ["power-up"], "boots version 1")


def verified(valve, chance):
    """What was received is triggered where it passes. An update that was triggered before goes by it too."""
    new, firmware = valve.new(chance), valve.image_size - HEADER
    for before in new, valve.stage(new, 2):
        received = says(valve.run(before, "receive", 3, firmware), "")
        damaged = changed(received, valve.update + HEADER + chance.randrange(firmware))
        a_stranger_s = written(received, valve.update + SIGNATURE[0], chance.randbytes(64))
        of_a_size = [written(received, valve.update + 4, size.to_bytes(4, "little")) for size in (0, firmware + 1)]
        for flash, number in (damaged, 17), (a_stranger_s, 18), *((flash, 12) for flash in of_a_size):
            check_not_triggered(valve, flash, number)
        check_untouched(valve, received, ["power-up"], "boots version 1")
        says(valve.power_up(says(valve.run(received, "trigger"), "")), "boots version 3, on trial")


def too_long(valve, chance):
    new = valve.new(chance)
    flash = says(valve.run(new, "stage", 2, valve.image_size - HEADER + 1), "too long", REFUSED)
    for at in range(0, valve.size, valve.sector):
        inside = valve.update <= at <= valve.update + valve.image_size
        assert inside or flash[at:at + valve.sector] == new[at:at + valve.sector], "only UPDATE is written"
    check_not_triggered(valve, flash, 12)


def boot_damaged(valve, chance):
    """It is refused where nothing is staged; an update is the way out of it, and there is no return."""
    new = changed(valve.new(chance), valve.boot, HEADER)
    check_untouched(valve, new, ["power-up"], refused(11), REFUSED)
    staged, steps = valve.stage(new, 2), 0
    while (done := valve.power_up(staged, steps=steps)).status == NOT_ENOUGH:
        says(valve.power_up(done.flash), "boots version 2, on trial")
        steps += 1
    assert steps > valve.most_steps / 2, steps
    check_untouched(valve, done.flash, ["power-up"], f"boots version 2, on trial, update passed over: {in_words(11)}")


def trailer_damaged(valve, chance):
    """Ill-formed flags are refused; an unsound trailer doesn't keep an image on trial from being returned from."""
    trailer = valve.update + valve.image_size
    staged = valve.stage(valve.new(chance), 2)
    check_untouched(valve, written(staged, trailer + valve.sector - 6, b"\xF5"), ["power-up"], refused(20), REFUSED)
    updated = valve.power_up(staged).flash
    says(valve.power_up(written(updated, trailer, chance.randbytes(valve.sector))), "boots version 1, on trial")
