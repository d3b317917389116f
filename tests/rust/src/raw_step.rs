//! A step as C passes it: numbers, of which each kind uses some. The others are ignored.
use crate::flash::{self, Geometry, Step};

#[repr(C)]
#[derive(Clone, Copy, Debug)]
pub struct RawStep {
    pub op: u32,
    pub at: usize,
    pub to: usize,
    pub value: u32,
}

impl From<Step> for RawStep {
    fn from(step: Step) -> RawStep {
        let (op, at, to, value) = match step {
            Step::Erase { at } => (0, at, 0, 0),
            Step::Copy { from, to } => (1, from, to, 0),
            Step::Byte { at, value } => (2, at, 0, value as u32),
            Step::Mark { at } => (3, at, 0, 0),
        };
        RawStep { op, at, to, value }
    }
}

impl RawStep {
    /// None where no step has these numbers.
    pub fn step(self) -> Option<Step> {
        let RawStep { op, at, to, value } = self;
        match op {
            0 => Some(Step::Erase { at }),
            1 => Some(Step::Copy { from: at, to }),
            2 => u8::try_from(value).ok().map(|value| Step::Byte { at, value }),
            3 => Some(Step::Mark { at }),
            _ => None,
        }
    }

    /// Carries it out. Numbers 1 to 4, then 24; a refusal leaves the flash as it is.
    pub fn apply(self, flash: &mut [u8], geometry: &Geometry) -> u32 {
        let answer = match self.step() {
            Some(step) => flash::apply(flash, geometry, step),
            None => geometry.areas(flash.len()).and(Err(24)),
        };
        answer.err().unwrap_or(0)
    }
}
