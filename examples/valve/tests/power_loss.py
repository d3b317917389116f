"""Power loss, while the valve has a driver to its flash. Either loader goes on with what the other one left."""
from commands import SIGNATURE, changed
from power_ups import PowerUps, check_cut, step_by_step
from valve import DONE, HEADER, NOT_ENOUGH, POWER_LOST, REFUSED, UPDATING, refused, says

HISTORIES = 8


def update_and_return(driver, chance):
    """Where the two lists of power-ups start."""
    staged = driver.stage(driver.new(chance), 2)
    return staged, driver.power_up(staged).flash


def stopped_after_each_step(driver, memory, chance):
    """Going on from there, the steps are those that were left."""
    for start in update_and_return(driver, chance):
        flashes = step_by_step(driver, memory, start)
        done = chance.randrange(len(flashes) - 1)
        assert step_by_step(driver, memory, flashes[done]) == flashes[done:], f"other steps after {done}"


def exchange_commands(driver):
    """Three copies by pages of 256, three erases with two commands each, and three flags for each sector."""
    return driver.count * 3 * (driver.sector // 256 + 2 + 1)


def each_command(driver, chance):
    """Each command to a small flash, and one in sixteen to a large one."""
    command = 0
    while True:
        yield command
        command += 1 + chance.randrange(driver.image_size // 1024)


def cut_once(driver, valve, start, flashes, cut):
    """The first power-up is cut, and this valve goes on. Whether the cut came before the end."""
    history = PowerUps(driver, start)
    done = history.power_up(driver, cut=cut)
    if done.status == POWER_LOST:
        check_cut(driver, flashes[sum(done.counts)], done.flash)
    history.finish(valve)
    return done.status == POWER_LOST


def cut_at_each_command(driver, memory, chance):
    for start in update_and_return(driver, chance):
        flashes = step_by_step(driver, memory, start)
        for command in each_command(driver, chance):
            # The last but one: all of an erase but a trailer's closing bytes.
            bytes_done = 0, 1, chance.randrange(2, driver.sector), driver.sector - 4, driver.sector
            lost = [cut_once(driver, chance.choice((driver, memory)), start, flashes, (command, b)) for b in bytes_done]
            if not all(lost):
                break
        assert command > exchange_commands(driver), f"only {command} commands"


def any_power_up(driver, memory, chance):
    """A loader, and what may cut it."""
    return chance.choice((
        (driver, {"cut": (chance.randrange(exchange_commands(driver)), chance.randrange(driver.sector))}),
        (driver, {"steps": chance.randrange(driver.most_steps)}),
        (memory, {"steps": chance.randrange(driver.most_steps)}),
    ))


def cut_again_and_again(driver, memory, chance):
    for _ in range(HISTORIES):
        start = driver.stage(driver.new(chance), 2)
        for _ in "update", "return":
            history = PowerUps(driver, start)
            for _ in range(8):
                if not history.ended:
                    valve, how = any_power_up(driver, memory, chance)
                    history.power_up(valve, **how)
            history.finish(chance.choice((driver, memory)))
            start = history.flash


def cut_while_staging(driver, memory, chance):
    """What was staged in part is no update, can't be triggered, and can be staged again."""
    first = driver.power_up(driver.stage(driver.new(chance), 2)).flash
    start = says(driver.run(first, "confirm"), "")
    whole = [driver.image(flash, driver.update) for flash in (start, driver.stage(start, 3))]
    for command in each_command(driver, chance):
        cut = {"LOSE_POWER_AT": command, "BYTES_DONE": chance.choice((0, 1, 100, driver.sector))}
        done = driver.run(start, "stage", 3, driver.image_size - HEADER, **cut)
        if done.status == DONE:
            break
        triggered = driver.is_sound_with(done.flash, driver.update, UPDATING)
        valve = chance.choice((driver, memory))
        passes = valve.run(done.flash, "trigger").status == DONE
        assert passes == (driver.image(done.flash, driver.update) in whole), "an image in part"
        says(valve.power_up(done.flash), "boots version 3, on trial" if triggered else "boots version 2")
        says(valve.power_up(driver.stage(done.flash, 4)), "boots version 4, on trial")
    assert command > driver.count * (2 + driver.sector // 256), f"only {command} commands"


def damaged_in_mid_swap(driver, memory, chance):
    """The new image is damaged in BOOT, in its firmware or its signature: it isn't started, and the old one returns."""
    staged = driver.stage(driver.new(chance), 2)
    flash = driver.power_up(staged, steps=9).flash
    assert flash[driver.boot:].startswith(driver.image(staged, driver.update)[:driver.sector]), "a sector is exchanged"
    for at in HEADER, *SIGNATURE:
        for valve in driver, memory:
            returned = says(valve.power_up(changed(flash, driver.boot + at)), "boots version 1, on trial")
            assert valve.image(returned, valve.boot) == valve.image(staged, valve.boot), "restored"


def worn_out(driver, memory, chance):
    """A byte isn't written any more. Of UPDATE: the image is refused. Of BOOT: the loader gives up; nothing is lost."""
    new = driver.new(chance)
    says(driver.run(new, "stage", 2, 1, WORN=driver.update), refused(11), REFUSED)
    staged = driver.stage(new, 2)
    done = driver.run(staged, "power-up", WORN=driver.boot)
    assert (done.status, sum(done.counts)) == (NOT_ENOUGH, 2 * driver.most_steps), done
    says(memory.power_up(done.flash), "boots version 2, on trial")
