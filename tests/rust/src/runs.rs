//! Document 01's bounded run and its record of finished steps, carried out plainly. What the library is compared with,
//! and what its speed is measured against.
use crate::answers::Answer;
use crate::decisions::{next_step, Signed};
use crate::flash::{self, Areas, Geometry, Slot, Step};
use crate::trailers::{progress, sound_with, UPDATING};

/// The largest number that a run is given.
pub const MOST_STEPS: u32 = 4096;
/// The largest counter that has room for a run.
pub const MOST_COUNT: u32 = 4_294_963_199;

/// As C passes it, so that the library is lent the same record.
#[repr(C)]
#[derive(Clone, Copy, Debug, Default, PartialEq)]
pub struct Counts {
    pub erases: u32,
    pub copies: u32,
    pub bytes: u32,
    pub marks: u32,
}

impl Counts {
    pub fn has_room(&self) -> bool {
        let Counts { erases, copies, bytes, marks } = *self;
        [erases, copies, bytes, marks].iter().all(|&count| count <= MOST_COUNT)
    }

    fn add(&mut self, step: Step) {
        let counter = match step {
            Step::Erase { .. } => &mut self.erases,
            Step::Copy { .. } => &mut self.copies,
            Step::Byte { .. } => &mut self.bytes,
            Step::Mark { .. } => &mut self.marks,
        };
        *counter += 1;
    }

    /// How many steps were added since.
    pub fn since(&self, before: &Counts) -> usize {
        let sum = |counts: &Counts| {
            [counts.erases, counts.copies, counts.bytes, counts.marks]
                .iter()
                .map(|&count| count as usize)
                .sum::<usize>()
        };
        sum(self) - sum(before)
    }
}

/// UPDATE is sound with 70, and all flags are 0.
pub fn all_updated(areas: &Areas, flash: &[u8]) -> bool {
    sound_with(areas, flash, Slot::Update, UPDATING) && progress(areas, flash) == Ok(3 * areas.sector_count)
}

/// Numbers 1 to 4, 29, 28. A refusal changes nothing.
fn check(flash: &[u8], geometry: &Geometry, number: u32, counts: &Counts) -> Result<Areas, u32> {
    let areas = geometry.areas(flash.len())?;
    if number > MOST_STEPS {
        return Err(29);
    }
    if counts.has_room() {
        Ok(areas)
    } else {
        Err(28)
    }
}

/// Decides and carries out up to a number of steps; then the step due. A later refusal keeps the steps done.
pub fn run(flash: &mut [u8], geometry: &Geometry, signed: Signed, number: u32, counts: &mut Counts) -> Answer {
    let areas = match check(flash, geometry, number, counts) {
        Ok(areas) => areas,
        Err(number) => return Answer::Refused(number),
    };
    let mut signed = signed;
    for _ in 0..number {
        let answer = next_step(flash, geometry, signed);
        let Some(step) = answer.step() else { return answer };
        let before = all_updated(&areas, flash);
        flash::apply(flash, geometry, step).expect("a step that was answered is accepted");
        counts.add(step);
        if answer == Answer::LastStep(step) {
            return Answer::Boot(0);
        }
        if all_updated(&areas, flash) && !before {
            signed = signed.exchanged();
        }
    }
    next_step(flash, geometry, signed)
}

/// The most steps of a run, an update that is found begun and the return after it; 0 where n is not 1 to 64.
pub fn most_steps(sector_count: usize) -> u32 {
    match sector_count {
        1..=64 => 2 * (9 * sector_count as u32 + 4),
        _ => 0,
    }
}

/// Adds a finished step of a kind: 0 erase, 1 copy, 2 byte, 3 mark. 24, then 28; a refusal changes nothing.
pub fn add_step(counts: &mut Counts, op: u32) -> u32 {
    let step = match op {
        0 => Step::Erase { at: 0 },
        1 => Step::Copy { from: 0, to: 0 },
        2 => Step::Byte { at: 0, value: 0 },
        3 => Step::Mark { at: 0 },
        _ => return 24,
    };
    if !counts.has_room() {
        return 28;
    }
    counts.add(step);
    0
}
