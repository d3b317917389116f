//! A board that goes through power-ups: the library and the plain loader decide, and each step is carried out.
use crate::answers::Answer;
use crate::decisions::Signed;
use crate::flash::{Areas, Geometry, Slot, Step};
use crate::guarded::Guarded;
use crate::runs::all_updated;
use crate::trailers::{image, sound_with};

/// A flash with an image put in each slot.
pub fn two_slots(mut flash: Vec<u8>, geometry: &Geometry, boot: &[u8], update: &[u8]) -> Vec<u8> {
    flash[geometry.boot..][..boot.len()].copy_from_slice(boot);
    flash[geometry.update..][..update.len()].copy_from_slice(update);
    flash
}

pub struct Powered {
    pub geometry: Geometry,
    pub flash: Guarded,
    pub signed: Signed,
}

impl Powered {
    pub fn new(geometry: Geometry, flash: &[u8], signed: Signed) -> Powered {
        Powered { geometry, flash: Guarded::new(flash, 0), signed }
    }

    fn areas(&self) -> Areas {
        self.geometry.areas(self.flash.flash().len()).expect("the geometry fits")
    }

    /// BOOT's image and UPDATE's.
    pub fn images(&self) -> [&[u8]; 2] {
        [Slot::Boot, Slot::Update].map(|slot| image(&self.areas(), self.flash.flash(), slot))
    }

    pub fn has_states(&self, boot: u8, update: u8) -> bool {
        let (areas, flash) = (self.areas(), self.flash.flash());
        sound_with(&areas, flash, Slot::Boot, boot) && sound_with(&areas, flash, Slot::Update, update)
    }

    /// The checker's answers change places when a step makes the last flag 0.
    fn carry_out(&mut self, step: Step) {
        let before = all_updated(&self.areas(), self.flash.flash());
        assert_eq!(self.flash.apply(&self.geometry, step), 0, "{:?}, {step:?}", self.geometry);
        if all_updated(&self.areas(), self.flash.flash()) && !before {
            self.signed = self.signed.exchanged();
        }
    }

    /// Carries out at most so many steps. Gives them, and the answer that ended it: after a last step a boot with no
    /// reason, and the step due where the number was used up.
    pub fn power_up(&mut self, most: usize) -> (Vec<Step>, Answer) {
        let mut steps = vec![];
        loop {
            let answer = self.flash.next_step(&self.geometry, self.signed);
            let Some(step) = answer.step().filter(|_| steps.len() < most) else { return (steps, answer) };
            self.carry_out(step);
            steps.push(step);
            if answer == Answer::LastStep(step) {
                return (steps, Answer::Boot(0));
            }
        }
    }

    /// Carries out a request until it is finished, in so many steps.
    pub fn request(&mut self, ask: fn(&Guarded, &Geometry) -> Answer, count: usize) {
        for _ in 0..count {
            let step = ask(&self.flash, &self.geometry).step().expect("a step is left");
            self.carry_out(step);
        }
        assert_eq!(ask(&self.flash, &self.geometry), Answer::Finished, "{:?}", self.geometry);
    }
}
