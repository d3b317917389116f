//! The two sectors that decision 4 compares.
use crate::decisions::source_and_target;
use crate::flash::Areas;
use crate::random::Random;

/// Changes one bit of the first byte, of the last or of any.
fn flip(random: &mut Random, sector: &mut [u8]) {
    let any = random.up_to(sector.len() - 1);
    sector[random.one_of(&[any, 0, sector.len() - 1])] ^= 1 << random.up_to(7);
}

/// After so many changes of flags: the target is made equal to the source, or all FF, or nearly so. In mid-swap the
/// source may become all FF too; before, it is a part of the image that has to pass.
pub fn relate(random: &mut Random, areas: &Areas, flash: &mut [u8], changes: usize) {
    let (z, n) = (areas.sector_size, areas.sector_count);
    if changes == 3 * n {
        return;
    }
    let (from, to) = source_and_target(areas, changes);
    if changes > 0 && random.percent(10) {
        flash[from..from + z].fill(0xff);
    }
    match random.up_to(4) {
        0 => flash[to..to + z].fill(0xff),
        1 | 2 => flash.copy_within(from..from + z, to),
        _ => return,
    }
    if random.percent(30) {
        flip(random, &mut flash[to..to + z]);
    }
}
