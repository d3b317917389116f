//! Entries on a flash and on the record of finished steps.
use crate::slices::{to_read, to_write};
use frondicare_tests::answers::RawAnswer;
use frondicare_tests::decisions::{self, Signed};
use frondicare_tests::flash::{Geometry, Slot};
use frondicare_tests::raw_step::RawStep;
use frondicare_tests::requests;
use frondicare_tests::runs::{self, Counts};
use frondicare_tests::states::{self, SlotState};

#[no_mangle]
extern "C" fn plain_check_geometry(
    flash_len: usize,
    sector_size: usize,
    sector_count: usize,
    boot: usize,
    update: usize,
    swap: usize,
) -> u32 {
    Geometry { sector_size, sector_count, boot, update, swap }.areas(flash_len).err().unwrap_or(0)
}

/// An entry on a flash, which takes its geometry. The flash becomes a slice, for reading or for writing.
macro_rules! on_flash {
    (
        fn $name:ident($flash:ident = $slice:ident, $geometry:ident $(, $more:ident: $type:ty)*) -> $answer:ty
        $body:block
    ) => {
        #[no_mangle]
        unsafe extern "C" fn $name(
            flash: *mut u8, flash_len: usize,
            sector_size: usize, sector_count: usize, boot: usize, update: usize, swap: usize,
            $($more: $type,)*
        ) -> $answer {
            let ($flash, $geometry) =
                ($slice(flash, flash_len), Geometry { sector_size, sector_count, boot, update, swap });
            $body
        }
    };
}

on_flash! {
    fn plain_apply_step(
        flash = to_write, geometry, op: u32, at: usize, to: usize, value: u32
    ) -> u32 {
        RawStep { op, at, to, value }.apply(flash, &geometry)
    }
}

on_flash! {
    fn plain_next_step(flash = to_read, geometry, boot_signed: bool, update_signed: bool) -> RawAnswer {
        decisions::next_step(flash, &geometry, Signed { boot: boot_signed, update: update_signed }).into()
    }
}

on_flash! {
    fn plain_trigger(flash = to_read, geometry) -> RawAnswer {
        requests::trigger(flash, &geometry).into()
    }
}

on_flash! {
    fn plain_confirm(flash = to_read, geometry) -> RawAnswer {
        requests::confirm(flash, &geometry).into()
    }
}

on_flash! {
    fn plain_boot_state(flash = to_read, geometry) -> SlotState {
        states::slot_state(flash, &geometry, Slot::Boot)
    }
}

on_flash! {
    fn plain_update_state(flash = to_read, geometry) -> SlotState {
        states::slot_state(flash, &geometry, Slot::Update)
    }
}

on_flash! {
    fn plain_in_mid_swap(flash = to_read, geometry) -> bool {
        states::in_mid_swap(flash, &geometry)
    }
}

on_flash! {
    fn plain_run(
        flash = to_write, geometry,
        boot_signed: bool, update_signed: bool, number: u32, counts: &mut Counts
    ) -> RawAnswer {
        runs::run(flash, &geometry, Signed { boot: boot_signed, update: update_signed }, number, counts).into()
    }
}

#[no_mangle]
extern "C" fn plain_most_steps(sector_count: usize) -> u32 {
    runs::most_steps(sector_count)
}

#[no_mangle]
extern "C" fn plain_add_step(counts: &mut Counts, op: u32) -> u32 {
    runs::add_step(counts, op)
}
