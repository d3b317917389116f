//! Document 01's "The next step", decided plainly. What the library is compared with, and what its speed is measured
//! against. An `Err` holds a number of the paper's table "Numbers given back".
use crate::answers::Answer;
use crate::flash::{Areas, Geometry, Slot, Step};
use crate::header;
use crate::trailers::{flag_step, image, progress, renewal, sound_with, state_place, SPENT, TESTING, UPDATING};

/// What the signature checker said of each slot.
#[repr(C)]
#[derive(Clone, Copy, Debug)]
pub struct Signed {
    pub boot: bool,
    pub update: bool,
}

impl Signed {
    /// The same images in each other's slots.
    pub fn exchanged(self) -> Signed {
        Signed { boot: self.update, update: self.boot }
    }
}

/// Why an update is not refused for its version.
#[derive(Clone, Copy, Debug)]
pub enum VersionRule {
    Greater,
    BootOnTrial,
    BootHasNone,
}

/// Which decision is due, with what it has found: a step, a number, or how many changes of flags have been made.
#[derive(Clone, Copy, Debug)]
pub enum Situation {
    /// Decision 1.
    IllFormed(u32),
    /// Decision 2, before BOOT's trailer is renewed and after.
    Exchanged(Step),
    Renewed,
    /// Decision 3.
    Update(VersionRule),
    NoUpdate(u32),
    /// Decision 4, in mid-swap.
    Exchanging(usize),
    /// Decision 5.
    Return(Step),
    NoReturn(u32),
    /// Decision 6, with no update or return considered.
    NothingStaged,
}

/// What is decided on: a flash whose geometry was accepted, and the checker's answers.
pub struct Slots<'a> {
    pub areas: Areas,
    pub flash: &'a [u8],
    pub signed: Signed,
}

/// The sectors that decision 4 is about, after so many changes of flags.
pub fn source_and_target(areas: &Areas, changes: usize) -> (usize, usize) {
    let [boot, update] =
        [Slot::Boot, Slot::Update].map(|slot| areas.slot(slot).start + changes / 3 * areas.sector_size);
    let swap = areas.swap.start;
    [(update, swap), (boot, update), (swap, boot)][changes % 3]
}

impl Slots<'_> {
    fn verdict(&self, slot: Slot) -> Result<(), u32> {
        let signature_ok = match slot {
            Slot::Boot => self.signed.boot,
            Slot::Update => self.signed.update,
        };
        header::verify(image(&self.areas, self.flash, slot), signature_ok)
    }

    fn version(&self, slot: Slot) -> Result<u32, u32> {
        header::version(image(&self.areas, self.flash, slot))
    }

    /// Decision 3.
    fn may_update(&self) -> Result<VersionRule, u32> {
        self.verdict(Slot::Update)?;
        if sound_with(&self.areas, self.flash, Slot::Boot, TESTING) {
            return Ok(VersionRule::BootOnTrial);
        }
        let Ok(version) = self.version(Slot::Boot) else { return Ok(VersionRule::BootHasNone) };
        if self.version(Slot::Update)? > version {
            Ok(VersionRule::Greater)
        } else {
            Err(19)
        }
    }

    /// Decisions 1 to 3.
    fn updating(&self) -> Situation {
        match progress(&self.areas, self.flash) {
            Err(number) => Situation::IllFormed(number),
            Ok(changes) if changes == 3 * self.areas.sector_count => {
                renewal(&self.areas, self.flash, Slot::Boot, TESTING).map_or(Situation::Renewed, Situation::Exchanged)
            }
            Ok(0) => self.may_update().map_or_else(Situation::NoUpdate, Situation::Update),
            Ok(changes) => Situation::Exchanging(changes),
        }
    }

    pub fn situation(&self) -> Situation {
        if sound_with(&self.areas, self.flash, Slot::Update, UPDATING) {
            return self.updating();
        }
        if !sound_with(&self.areas, self.flash, Slot::Boot, TESTING) {
            return Situation::NothingStaged;
        }
        // Decision 5. The renewal isn't finished, as UPDATE is not sound with that state.
        let renewal = || renewal(&self.areas, self.flash, Slot::Update, UPDATING).expect("a step is left");
        self.verdict(Slot::Update).map_or_else(Situation::NoReturn, |()| Situation::Return(renewal()))
    }

    /// Decision 4.
    fn exchange(&self, changes: usize) -> Step {
        let z = self.areas.sector_size;
        let (from, to) = source_and_target(&self.areas, changes);
        let (source, target) = (&self.flash[from..from + z], &self.flash[to..to + z]);
        if source == target {
            flag_step(&self.areas, self.flash, changes).expect("a flag is left")
        } else if target.iter().all(|&byte| byte == 0xff) {
            Step::Copy { from, to }
        } else {
            Step::Erase { at: to }
        }
    }

    /// Decision 2, with BOOT's trailer renewed.
    fn spend(&self) -> Answer {
        let step = Step::Byte { at: state_place(&self.areas, Slot::Update), value: SPENT };
        self.verdict(Slot::Boot).map_or(Answer::Step(step), |()| Answer::LastStep(step))
    }

    /// Decision 6.
    fn boot(&self, passed_over: u32) -> Answer {
        self.verdict(Slot::Boot).map_or_else(Answer::Refused, |()| Answer::Boot(passed_over))
    }

    pub fn answer(&self, situation: Situation) -> Answer {
        match situation {
            Situation::IllFormed(number) => Answer::Refused(number),
            Situation::Exchanged(step) | Situation::Return(step) => Answer::Step(step),
            Situation::Renewed => self.spend(),
            Situation::Update(_) => Answer::Step(self.exchange(0)),
            Situation::Exchanging(changes) => Answer::Step(self.exchange(changes)),
            Situation::NoUpdate(number) | Situation::NoReturn(number) => self.boot(number),
            Situation::NothingStaged => self.boot(0),
        }
    }
}

/// Numbers 1 to 4, then what the decisions give.
pub fn next_step(flash: &[u8], geometry: &Geometry, signed: Signed) -> Answer {
    match geometry.areas(flash.len()) {
        Err(number) => Answer::Refused(number),
        Ok(areas) => {
            let slots = Slots { areas, flash, signed };
            slots.answer(slots.situation())
        }
    }
}
