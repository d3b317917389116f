"""Lists of power-ups, and what must hold of them."""
from itertools import count

from valve import CLOSING, DONE, NOT_ENOUGH, ON_TRIAL, POWER_LOST, SPENT, says


class PowerUps:
    """A list of power-ups with which the slots change places: cut ones, then an uncut one."""
    def __init__(self, valve, start):
        self.start = self.flash = start
        self.expected = valve.images(start)[::-1]
        self.version = int.from_bytes(self.expected[0][12:16], "little")
        self.begun = self.cuts = 0
        self.ended = False

    def power_up(self, valve, **how):
        """One of them. A cut that leaves the last byte done counts as a boot."""
        done = valve.power_up(self.flash, **how)
        self.flash = done.flash
        self.begun += sum(done.counts) + (done.status == POWER_LOST)
        assert valve.outside(self.flash) == valve.outside(self.start), "bytes outside the areas"
        assert done.status in (DONE, POWER_LOST, NOT_ENOUGH), done.text
        self.cuts += done.status != DONE
        exchanged = valve.images(self.flash) == self.expected
        self.ended = done.status == DONE or exchanged and valve.is_sound_with(self.flash, valve.update, SPENT)
        if self.ended:
            assert exchanged and valve.is_sound_with(self.flash, valve.boot, ON_TRIAL), "exchanged, and on trial"
            assert self.begun <= valve.most_steps + 2 * self.cuts, f"{self.begun} steps with {self.cuts} cuts"
        return done

    def finish(self, valve):
        """The uncut one, unless a cut counted as a boot."""
        if not self.ended:
            says(self.power_up(valve), f"boots version {self.version}, on trial")


def step_by_step(driver, memory, start):
    """The flash after 0, 1, .. steps, in which both loaders agree."""
    flashes = []
    for steps in count():
        done = driver.power_up(start, steps=steps)
        assert done == memory.power_up(start, steps=steps), f"the loaders differ after {steps} steps"
        flashes.append(done.flash)
        if done.status == DONE:
            return flashes


def check_cut(driver, before, after):
    """What document 01 allows a step to leave that was cut: one sector changes, and a trailer that an erase has begun
    on is not sound."""
    sectors = [slice(at, at + driver.sector) for at in range(0, driver.size, driver.sector)]
    assert sum(before[sector] != after[sector] for sector in sectors) <= 1, "a cut step changes one sector"
    for slot in driver.boot, driver.update:
        old, new = driver.trailer(before, slot), driver.trailer(after, slot)
        if any(b & ~a for a, b in zip(old, new)):
            assert new[-4:] != CLOSING, "a cut erase leaves a trailer sound"
