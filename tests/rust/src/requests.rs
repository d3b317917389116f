//! Document 01's trigger and confirm, decided plainly. What the library is compared with, and what its speed is
//! measured against.
use crate::answers::Answer;
use crate::flash::{Areas, Geometry, Slot, Step};
use crate::trailers::{all_new, renewal, sound_with, state_place, SUCCESS, TESTING, UPDATING};

/// Numbers 1 to 4, then 22.
fn areas_at_rest(flash: &[u8], geometry: &Geometry) -> Result<Areas, u32> {
    let areas = geometry.areas(flash.len())?;
    if sound_with(&areas, flash, Slot::Update, UPDATING) && !all_new(&areas, flash) {
        return Err(22);
    }
    Ok(areas)
}

fn trigger_step(flash: &[u8], geometry: &Geometry) -> Result<Option<Step>, u32> {
    let areas = areas_at_rest(flash, geometry)?;
    if sound_with(&areas, flash, Slot::Boot, TESTING) {
        return Err(21);
    }
    Ok(renewal(&areas, flash, Slot::Update, UPDATING))
}

fn confirm_step(flash: &[u8], geometry: &Geometry) -> Result<Option<Step>, u32> {
    let areas = areas_at_rest(flash, geometry)?;
    if sound_with(&areas, flash, Slot::Boot, SUCCESS) {
        return Ok(None);
    }
    if sound_with(&areas, flash, Slot::Boot, TESTING) {
        return Ok(Some(Step::Byte { at: state_place(&areas, Slot::Boot), value: SUCCESS }));
    }
    Err(23)
}

fn answer(step: Result<Option<Step>, u32>) -> Answer {
    match step {
        Ok(Some(step)) => Answer::Step(step),
        Ok(None) => Answer::Finished,
        Err(number) => Answer::Refused(number),
    }
}

pub fn trigger(flash: &[u8], geometry: &Geometry) -> Answer {
    answer(trigger_step(flash, geometry))
}

pub fn confirm(flash: &[u8], geometry: &Geometry) -> Answer {
    answer(confirm_step(flash, geometry))
}
