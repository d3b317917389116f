//! The loader's entries, called on slices.
use crate::answers::RawAnswer;
use crate::decisions::Signed;
use crate::entries::{
    frondicare_boot_state, frondicare_confirm, frondicare_in_mid_swap, frondicare_next_step, frondicare_trigger,
    frondicare_update_state,
};
use crate::flash::{Geometry, Slot};
use crate::states::SlotState;

pub fn next_step(flash: &[u8], geometry: &Geometry, signed: Signed) -> RawAnswer {
    let Geometry { sector_size, sector_count, boot, update, swap } = *geometry;
    let Signed { boot: boot_signed, update: update_signed } = signed;
    let (flash, len) = (flash.as_ptr(), flash.len());
    unsafe {
        frondicare_next_step(flash, len, sector_size, sector_count, boot, update, swap, boot_signed, update_signed)
    }
}

pub fn trigger(flash: &[u8], geometry: &Geometry) -> RawAnswer {
    let Geometry { sector_size, sector_count, boot, update, swap } = *geometry;
    unsafe { frondicare_trigger(flash.as_ptr(), flash.len(), sector_size, sector_count, boot, update, swap) }
}

pub fn confirm(flash: &[u8], geometry: &Geometry) -> RawAnswer {
    let Geometry { sector_size, sector_count, boot, update, swap } = *geometry;
    unsafe { frondicare_confirm(flash.as_ptr(), flash.len(), sector_size, sector_count, boot, update, swap) }
}

pub fn slot_state(flash: &[u8], geometry: &Geometry, slot: Slot) -> SlotState {
    let Geometry { sector_size, sector_count, boot, update, swap } = *geometry;
    let entry = match slot {
        Slot::Boot => frondicare_boot_state,
        Slot::Update => frondicare_update_state,
    };
    unsafe { entry(flash.as_ptr(), flash.len(), sector_size, sector_count, boot, update, swap) }
}

pub fn in_mid_swap(flash: &[u8], geometry: &Geometry) -> bool {
    let Geometry { sector_size, sector_count, boot, update, swap } = *geometry;
    unsafe { frondicare_in_mid_swap(flash.as_ptr(), flash.len(), sector_size, sector_count, boot, update, swap) }
}
