//! Random boards: a flash with two slots under a random geometry, in every state that the loader decides on.
mod faults;
mod sectors;
mod slot_images;
mod slot_trailers;
mod under_way;

use crate::decisions::Signed;
use crate::flash::{Geometry, Slot};
use crate::layouts;
use crate::random::Random;
use crate::trailers::{progress, sound_with, UPDATING};

pub struct Board {
    pub geometry: Geometry,
    pub flash: Vec<u8>,
    pub signed: Signed,
}

/// Mostly small, so that there can be many.
fn sizes(random: &mut Random) -> (usize, usize) {
    match random.up_to(99) {
        0 => (256, 64),
        1..=15 => layouts::sizes(random, 3),
        _ => (256, 2 + random.up_to(6)),
    }
}

/// The geometry fits the flash.
fn sound(random: &mut Random) -> Board {
    let sizes = sizes(random);
    let start = sizes.0 * random.up_to(1);
    let (geometry, end) = layouts::placed(random, sizes, start);
    let after = random.one_of(&[0, 0, 1, sizes.0]);
    let mut flash = layouts::contents(random, end + after);
    let areas = geometry.areas(flash.len()).expect("the areas were placed");
    let images = slot_images::two(random, sizes.0 * sizes.1);
    for (slot, image) in [Slot::Boot, Slot::Update].into_iter().zip(images) {
        flash[areas.slot(slot).start..][..image.len()].copy_from_slice(&image);
    }
    slot_trailers::boot(random, &areas, &mut flash);
    slot_trailers::update(random, &areas, &mut flash);
    match progress(&areas, &flash) {
        Ok(changes) if sound_with(&areas, &flash, Slot::Update, UPDATING) => {
            sectors::relate(random, &areas, &mut flash, changes);
        }
        _ => (),
    }
    Board { geometry, flash, signed: Signed { boot: random.percent(85), update: random.percent(85) } }
}

/// At times the geometry has a fault.
pub fn any(random: &mut Random) -> Board {
    let mut board = sound(random);
    if random.percent(2) {
        let any = random.up_to(board.flash.len());
        board.flash.truncate(random.one_of(&[any, board.flash.len() - 1]));
    }
    for _ in 0..random.up_to(99).saturating_sub(93).min(2) {
        layouts::disturb(random, &mut board.geometry);
    }
    board
}

/// With any answers of the checker; at times in the middle of an update that nothing disturbed.
pub fn for_a_run(random: &mut Random) -> Board {
    let mut board = if random.percent(30) { under_way::any(random) } else { any(random) };
    if random.percent(50) {
        board.signed = Signed { boot: random.percent(50), update: random.percent(50) };
    }
    board
}
