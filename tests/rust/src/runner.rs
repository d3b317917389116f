//! The runner's entries, called on slices.
use crate::answers::RawAnswer;
use crate::decisions::Signed;
use crate::entries::{frondicare_add_step, frondicare_most_steps, frondicare_run};
use crate::flash::Geometry;
use crate::frondicare::PAINT;
use crate::runs::Counts;

const GUARD: usize = 64;

/// A record with bytes around it that are not lent and have to stay.
#[repr(C)]
struct Lent {
    before: [u8; GUARD],
    counts: Counts,
    after: [u8; GUARD],
}

/// Lends the record to a call.
fn lend<T>(counts: &mut Counts, call: impl Fn(*mut Counts) -> T) -> T {
    let mut lent = Lent { before: [PAINT; GUARD], counts: *counts, after: [PAINT; GUARD] };
    let answer = call(&mut lent.counts);
    assert!(lent.before == [PAINT; GUARD] && lent.after == [PAINT; GUARD], "bytes beside the record were written");
    *counts = lent.counts;
    answer
}

pub fn run(flash: &mut [u8], geometry: &Geometry, signed: Signed, number: u32, counts: &mut Counts) -> RawAnswer {
    let Geometry { sector_size, sector_count, boot, update, swap } = *geometry;
    let Signed { boot: boot_signed, update: update_signed } = signed;
    let (flash, len) = (flash.as_mut_ptr(), flash.len());
    lend(counts, |counts| unsafe {
        frondicare_run(
            flash,
            len,
            sector_size,
            sector_count,
            boot,
            update,
            swap,
            boot_signed,
            update_signed,
            number,
            counts,
        )
    })
}

pub fn most_steps(sector_count: usize) -> u32 {
    unsafe { frondicare_most_steps(sector_count) }
}

pub fn add_step(counts: &mut Counts, op: u32) -> u32 {
    lend(counts, |counts| unsafe { frondicare_add_step(counts, op) })
}
