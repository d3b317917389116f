//! How a flash stands, read plainly: a slot's state, and whether it is mid-swap.
use crate::flash::{Geometry, Slot, CLOSING};
use crate::trailers::{all_new, all_updated, sound_with, state_place, UPDATING};

/// `frondicare_slot_state`.
#[repr(C)]
#[derive(Clone, Copy, Debug, PartialEq)]
pub struct SlotState {
    pub number: u32,
    pub state: u32,
}

/// The state where there is none: no byte.
pub const NO_STATE: u32 = 256;

/// Numbers 1 to 4; the state where the slot ends in the closing bytes.
pub fn slot_state(flash: &[u8], geometry: &Geometry, slot: Slot) -> SlotState {
    let areas = match geometry.areas(flash.len()) {
        Ok(areas) => areas,
        Err(number) => return SlotState { number, state: NO_STATE },
    };
    let sound = flash[areas.slot(slot).clone()].ends_with(&CLOSING);
    let state = if sound { u32::from(flash[state_place(&areas, slot)]) } else { NO_STATE };
    SlotState { number: 0, state }
}

/// UPDATE is sound with 70, and its flags are neither all F nor all 0.
pub fn in_mid_swap(flash: &[u8], geometry: &Geometry) -> bool {
    let Ok(areas) = geometry.areas(flash.len()) else { return false };
    sound_with(&areas, flash, Slot::Update, UPDATING) && !all_new(&areas, flash) && !all_updated(&areas, flash)
}
