//! A list of power-ups (document 01, "Demand 3's first run"): cut ones, and then an uncut one or a cut that counts as a
//! boot. Each is a run by the library, compared with the plain one.
use crate::answers::Answer;
use crate::cuts::{self, Left};
use crate::decisions::Signed;
use crate::flash::{Areas, Geometry, Slot, Step};
use crate::guarded::Guarded;
use crate::random::Random;
use crate::runs::{Counts, MOST_COUNT, MOST_STEPS};
use crate::trailers::{image, progress, sound_with, UPDATING};

/// The signature checker: it says yes to these images.
pub struct Checker {
    pub signed: Vec<Vec<u8>>,
}

impl Checker {
    fn says(&self, areas: &Areas, flash: &[u8]) -> Signed {
        let [boot, update] =
            [Slot::Boot, Slot::Update].map(|slot| self.signed.iter().any(|signed| signed == image(areas, flash, slot)));
        Signed { boot, update }
    }
}

pub struct PowerUps<'a> {
    geometry: Geometry,
    areas: Areas,
    checker: &'a Checker,
    /// The flash that began the list.
    began: Vec<u8>,
    flash: Guarded,
    /// The steps counted and those that a cut fell on.
    pub begun: usize,
    pub cuts: usize,
    pub booted: bool,
}

/// Any record with room for a run.
fn any_counts(random: &mut Random) -> Counts {
    let mut count = || {
        let any = random.up_to(MOST_COUNT as usize) as u32;
        random.one_of(&[any, 0, MOST_COUNT])
    };
    Counts { erases: count(), copies: count(), bytes: count(), marks: count() }
}

impl PowerUps<'_> {
    pub fn new<'a>(geometry: Geometry, flash: &[u8], checker: &'a Checker) -> PowerUps<'a> {
        let areas = geometry.areas(flash.len()).expect("the geometry fits");
        let (began, flash) = (flash.to_vec(), Guarded::new(flash, 0));
        PowerUps { geometry, areas, checker, began, flash, begun: 0, cuts: 0, booted: false }
    }

    pub fn flash(&self) -> &[u8] {
        self.flash.flash()
    }

    /// In mid-swap the checker's answers go by the slots before that swap.
    fn signed(&self) -> Signed {
        let (areas, flash) = (&self.areas, self.flash());
        let under_way = |changes| 0 < changes && changes < 3 * areas.sector_count;
        let mid_swap = sound_with(areas, flash, Slot::Update, UPDATING) && progress(areas, flash).is_ok_and(under_way);
        self.checker.says(areas, if mid_swap { &self.began } else { flash })
    }

    fn run(&mut self, random: &mut Random, number: u32) -> Answer {
        let (signed, before) = (self.signed(), any_counts(random));
        let mut counts = before;
        let answer = self.flash.run(&self.geometry, signed, number, &mut counts);
        self.begun += counts.since(&before);
        self.check_outside();
        answer
    }

    /// The power-up without a cut: boot, with no reason.
    pub fn uncut(&mut self, random: &mut Random) {
        assert_eq!(self.run(random, MOST_STEPS), Answer::Boot(0), "{:?}", self.geometry);
        self.booted = true;
    }

    /// A power-up that is cut after so many steps. Gives the step due then, on which the cut may fall; where the last
    /// one is done already the cut counts as a boot.
    pub fn cut_after(&mut self, random: &mut Random, number: u32) -> Option<Answer> {
        let answer = self.run(random, number);
        self.cuts += 1;
        self.booted = answer == Answer::Boot(0);
        assert!(self.booted || answer.step().is_some(), "{:?}: {answer:?}", self.geometry);
        Some(answer).filter(|_| !self.booted)
    }

    /// The cut falls on the step due. The last one done counts as a boot.
    pub fn fall_on(&mut self, random: &mut Random, due: Answer, left: Left) {
        let step = due.step().expect("a step is due");
        let after = cuts::cut(random, &self.geometry, self.flash(), step, left);
        self.flash.put(0, &after);
        self.begun += 1;
        self.booted = due == Answer::LastStep(step) && left == Left::Done;
        self.check_outside();
    }

    /// No byte outside the three areas changes.
    fn check_outside(&self) {
        let (areas, flash) = (&self.areas, self.flash());
        let mut from = 0;
        let mut inside = [areas.slot(Slot::Boot).clone(), areas.slot(Slot::Update).clone(), areas.swap.clone()];
        inside.sort_by_key(|area| area.start);
        for area in inside {
            assert!(flash[from..area.start] == self.began[from..area.start], "{:?}: outside", self.geometry);
            from = area.end;
        }
        assert!(flash[from..] == self.began[from..], "{:?}: outside", self.geometry);
    }

    /// Where a step writes, in words.
    pub fn target(&self, step: Step) -> &'static str {
        let (areas, boot, update) = (&self.areas, self.areas.slot(Slot::Boot), self.areas.slot(Slot::Update));
        let (Step::Erase { at } | Step::Copy { to: at, .. } | Step::Byte { at, .. } | Step::Mark { at }) = step;
        let whole = matches!(step, Step::Erase { .. } | Step::Copy { .. });
        match at {
            _ if areas.swap.contains(&at) => "SWAP",
            _ if whole && areas.trailer(Slot::Boot).contains(&at) => "BOOT's trailer",
            _ if whole && areas.trailer(Slot::Update).contains(&at) => "UPDATE's trailer",
            _ if at == boot.end - 5 => "BOOT's state",
            _ if at == update.end - 5 => "UPDATE's state",
            _ if boot.contains(&at) => "BOOT",
            _ if at < update.end - 5 && !whole => "a flag",
            _ => "UPDATE",
        }
    }
}
