//! What the trailers of the two slots hold.
use crate::flash::{Areas, Slot, CLOSING};
use crate::random::Random;
use crate::trailers::{flag_after, flag_place, sound_with, SPENT, SUCCESS, TESTING, UPDATING};

/// Mostly the likely one.
fn state(random: &mut Random, likely: u8, percent: usize) -> u8 {
    let (any, near) = (random.number() as u8, likely ^ 1 << random.up_to(7));
    if random.percent(percent) {
        likely
    } else {
        random.one_of(&[UPDATING, TESTING, SPENT, SUCCESS, SUCCESS, 0xff, any, near])
    }
}

/// Sound, all FF, the state alone, a closing byte missing, or as the flash is; at times one bit differs.
fn fill(random: &mut Random, trailer: &mut [u8], state: u8) {
    let end = trailer.len();
    let kind = random.up_to(23);
    if kind != 0 && random.percent(90) {
        trailer.fill(0xff);
    }
    if kind > 2 {
        trailer[end - 5] = state;
    }
    match kind {
        0..=5 => (),
        6 => trailer[end - 4..end - 1].copy_from_slice(&CLOSING[..3]),
        7 => trailer[end - 3..].copy_from_slice(&CLOSING[1..]),
        _ => trailer[end - 4..].copy_from_slice(&CLOSING),
    }
    if random.percent(12) {
        let any = random.up_to(end - 1);
        let place = random.one_of(&[any, 0, end - 6, end - 5, end - 4, end - 3, end - 2, end - 1]);
        trailer[place] ^= 1 << random.up_to(7);
    }
}

pub fn boot(random: &mut Random, areas: &Areas, flash: &mut [u8]) {
    let state = state(random, TESTING, 60);
    fill(random, &mut flash[areas.trailer(Slot::Boot)], state);
}

fn set_flag(areas: &Areas, flash: &mut [u8], sector: usize, flag: u8) {
    let (at, shift) = flag_place(areas, sector);
    flash[at] = flash[at] & !(0xf << shift) | flag << shift;
}

/// Well formed at any progress, all F and all 0 more often; at times one or more of them are others.
fn set_flags(random: &mut Random, areas: &Areas, flash: &mut [u8]) {
    let n = areas.sector_count;
    let some = random.up_to(3 * n);
    let changes = random.one_of(&[0, 0, 0, 3 * n, some, some, some]);
    let others = random.up_to(99).saturating_sub(85).min(2);
    for sector in 0..n {
        set_flag(areas, flash, sector, flag_after(changes, sector));
    }
    for _ in 0..others {
        let any = random.up_to(15) as u8;
        set_flag(areas, flash, random.up_to(n - 1), random.one_of(&[0xf, 0x7, 0x3, 0x0, any]));
    }
    // No sector has this flag. For odd n it is the spare half.
    if random.percent(50) {
        set_flag(areas, flash, n, random.up_to(15) as u8);
    }
}

pub fn update(random: &mut Random, areas: &Areas, flash: &mut [u8]) {
    let state = state(random, UPDATING, 85);
    fill(random, &mut flash[areas.trailer(Slot::Update)], state);
    if sound_with(areas, flash, Slot::Update, UPDATING) || random.percent(20) {
        set_flags(random, areas, flash);
    }
}
