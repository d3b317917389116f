//! Boards that demand 3 speaks of: a triggered update, BOOT not on trial, both images pass and UPDATE's version is the
//! higher. Everything else is arbitrary: SWAP, BOOT's trailer, the rest of UPDATE's, and the bytes outside the areas.
use crate::flash::{Areas, Geometry, Slot, CLOSING};
use crate::header::{self, SIZE};
use crate::random::Random;
use crate::trailers::{all_new, flag_place, image, sound_with, state_place, SPENT, SUCCESS, TESTING, UPDATING};
use crate::writer::{self, Fields, Parts};
use crate::{images, layouts};

pub struct Staged {
    pub geometry: Geometry,
    pub flash: Vec<u8>,
}

/// Makes sectors of the two images the same, or all FF in one or both, or of another single value.
fn relate(random: &mut Random, boot: &mut [u8], update: &mut [u8]) {
    match random.up_to(11) {
        0 => boot.copy_from_slice(update),
        1 => boot.fill(0xff),
        2 => update.fill(0xff),
        3 => boot.iter_mut().chain(update).for_each(|byte| *byte = 0xff),
        4 => boot.fill(random.number() as u8),
        5 => {
            boot.copy_from_slice(update);
            boot[random.up_to(update.len() - 1)] ^= 1 << random.up_to(7);
        }
        _ => (),
    }
}

/// Puts a header over the first bytes of an image. The firmware may end before the image does.
fn close(random: &mut Random, image: &mut [u8], version: u32) {
    let room = image.len() - SIZE;
    let some = 1 + random.up_to(room - 1);
    let firmware_len = random.one_of(&[room, room, some, 1]);
    let custom = images::custom_run(random, writer::MOST_CUSTOM);
    let (hint, signature) = (random.array(), random.array());
    let (header, body) = image.split_at_mut(SIZE);
    let fields = Fields { version, ..images::fields(random) };
    let parts = Parts { fields, firmware: &body[..firmware_len], custom: &custom, hint: &hint };
    writer::write_header(header, &parts, &signature).expect("the parts are well formed");
}

/// Puts images in the slots, with the lower version in BOOT.
fn fill_slots(random: &mut Random, areas: &Areas, flash: &mut [u8], bodies: [Vec<u8>; 2]) {
    let high = 1 + random.up_to(u32::MAX as usize - 1) as u32;
    let some = random.up_to(high as usize - 1) as u32;
    let low = random.one_of(&[some, 0, high - 1]);
    for ((slot, mut image), version) in [Slot::Boot, Slot::Update].into_iter().zip(bodies).zip([low, high]) {
        close(random, &mut image, version);
        flash[areas.slot(slot).start..][..image.len()].copy_from_slice(&image);
    }
}

/// Blank, its state alone, sound with another state than 10, nearly sound with 10, or any bytes.
fn fill_boot_trailer(random: &mut Random, trailer: &mut [u8]) {
    let (end, any) = (trailer.len(), random.number() as u8);
    if random.percent(60) {
        trailer.fill(0xff);
    }
    match random.up_to(4) {
        0 => (),
        1 => trailer[end - 5] = TESTING,
        2 => {
            trailer[end - 5] = random.one_of(&[SUCCESS, SUCCESS, 0xff, UPDATING, SPENT, any]);
            trailer[end - 4..].copy_from_slice(&CLOSING);
        }
        3 => {
            trailer[end - 5] = TESTING;
            trailer[end - 4..].copy_from_slice(&CLOSING);
            trailer[end - 1 - random.up_to(3)] ^= 1 << random.up_to(7);
        }
        _ => trailer[random.up_to(end - 1)] = any,
    }
    if trailer.ends_with(&CLOSING) && trailer[end - 5] == TESTING {
        trailer[end - 5] = SUCCESS;
    }
}

/// All flags F, the spare half of an odd count any, and what lies before them as it is.
fn close_update(random: &mut Random, areas: &Areas, flash: &mut [u8]) {
    let (n, state) = (areas.sector_count, state_place(areas, Slot::Update));
    flash[flag_place(areas, n - 1).0..state].fill(0xff);
    if n % 2 == 1 {
        flash[flag_place(areas, n - 1).0] = 0x0f | (random.up_to(15) as u8) << 4;
    }
    flash[state] = UPDATING;
    flash[state + 1..state + 5].copy_from_slice(&CLOSING);
}

/// As it is, all FF, or what the first copy is to write, at times but for a bit.
fn fill_swap(random: &mut Random, areas: &Areas, flash: &mut [u8]) {
    let (swap, first) = (areas.swap.clone(), areas.slot(Slot::Update).start);
    match random.up_to(3) {
        0 => flash[swap].fill(0xff),
        1 => {
            flash.copy_within(first..first + areas.sector_size, swap.start);
            if random.percent(50) {
                flash[swap.start + random.up_to(areas.sector_size - 1)] ^= 1 << random.up_to(7);
            }
        }
        _ => (),
    }
}

/// What demand 3 supposes.
fn check(areas: &Areas, flash: &[u8]) {
    let [boot, update] = [Slot::Boot, Slot::Update].map(|slot| image(areas, flash, slot));
    assert_eq!([boot, update].map(|image| header::verify(image, true)), [Ok(()); 2]);
    assert!(header::version(boot).unwrap() < header::version(update).unwrap());
    assert!(sound_with(areas, flash, Slot::Update, UPDATING) && all_new(areas, flash));
    assert!(!sound_with(areas, flash, Slot::Boot, TESTING));
}

/// Areas of these sizes in any order, and the flash before anything is put there.
fn placed(random: &mut Random, sizes: (usize, usize)) -> (Geometry, Areas, Vec<u8>) {
    let start = sizes.0 * random.up_to(1);
    let (geometry, end) = layouts::placed(random, sizes, start);
    let after = random.one_of(&[0, 1, sizes.0 / 2, sizes.0]);
    let areas = geometry.areas(end + after).expect("the areas were placed");
    (geometry, areas, layouts::contents(random, end + after))
}

pub fn any(random: &mut Random, sizes: (usize, usize)) -> Staged {
    let (geometry, areas, mut flash) = placed(random, sizes);
    let [mut boot, mut update] = [(); 2].map(|()| random.bytes(sizes.0 * sizes.1));
    if random.percent(60) {
        let sectors = boot.chunks_mut(sizes.0).zip(update.chunks_mut(sizes.0));
        sectors.for_each(|(one, other)| relate(random, one, other));
    }
    fill_slots(random, &areas, &mut flash, [boot, update]);
    fill_boot_trailer(random, &mut flash[areas.trailer(Slot::Boot)]);
    close_update(random, &areas, &mut flash);
    fill_swap(random, &areas, &mut flash);
    check(&areas, &flash);
    Staged { geometry, flash }
}

/// One that needs all the 9n + 4 steps: no sector is blank and no two are the same, and SWAP and BOOT's trailer have to
/// be erased.
pub fn full(random: &mut Random, sizes: (usize, usize)) -> Staged {
    let (geometry, areas, mut flash) = placed(random, sizes);
    let bodies = [(); 2].map(|()| random.bytes(sizes.0 * sizes.1));
    fill_slots(random, &areas, &mut flash, bodies);
    flash[areas.trailer(Slot::Boot)].fill(random.up_to(0xfe) as u8);
    flash[areas.swap.clone()].fill(random.up_to(0xfe) as u8);
    close_update(random, &areas, &mut flash);
    check(&areas, &flash);
    Staged { geometry, flash }
}
