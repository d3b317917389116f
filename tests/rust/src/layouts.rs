//! Random geometries, some with faults, and random steps on them, most of them near the edges of what is accepted.
use crate::flash::{Geometry, Slot};
use crate::random::Random;
use crate::raw_step::RawStep;

pub const SECTOR_SIZES: [usize; 5] = [256, 512, 1024, 2048, 4096];

/// Sector size and count; not more than `most` sectors of image.
pub fn sizes(random: &mut Random, most: usize) -> (usize, usize) {
    let any = 1 + random.up_to(most - 1);
    (random.one_of(&SECTOR_SIZES), random.one_of(&[1, 2.min(most), most, any]))
}

/// The areas in any order from a place on, often one right behind the other; and the place behind the last.
pub fn placed(random: &mut Random, (sector_size, sector_count): (usize, usize), start: usize) -> (Geometry, usize) {
    let mut end = start;
    let mut offsets = [0; 3];
    let mut order = [0, 1, 2];
    for i in [2, 1] {
        order.swap(i, random.up_to(i));
    }
    for area in order {
        end += sector_size * random.one_of(&[0, 0, 0, 0, 1, 3]);
        offsets[area] = end;
        end += sector_size * if area == 2 { 1 } else { sector_count + 1 };
    }
    let [boot, update, swap] = offsets;
    (Geometry { sector_size, sector_count, boot, update, swap }, end)
}

/// A number that is easily mistaken, beside another.
fn near(random: &mut Random, number: usize, sector_size: usize) -> usize {
    let below_top = (1 + random.up_to(66)).wrapping_mul(sector_size).wrapping_neg();
    match random.up_to(7) {
        0 => number.wrapping_add(1),
        1 => number.wrapping_sub(1),
        2 => number.wrapping_add(sector_size),
        3 => number.wrapping_sub(sector_size),
        4 => number.wrapping_add(sector_size / 2),
        5 => below_top,
        6 => number.wrapping_add(1 << 32),
        _ => random.number() as usize >> random.up_to(63),
    }
}

fn wrong_sector_size(random: &mut Random, right: usize) -> usize {
    let other = right.wrapping_mul(3);
    let any = near(random, right, right);
    random.one_of(&[0, 1, 128, right.wrapping_sub(1), right.wrapping_add(1), other, 8192, right.wrapping_neg(), any])
}

/// Too small and too large, among them those whose slot wraps to few bytes.
fn wrong_sector_count(random: &mut Random, right: usize, sector_size: usize) -> usize {
    let wraps = (usize::MAX / sector_size.max(1)).wrapping_add(random.up_to(3));
    let low_byte_right = right.wrapping_add(256);
    random.one_of(&[0, 65, 66, 128, low_byte_right, right.wrapping_add(1 << 32), wraps, usize::MAX])
}

/// One fault: in the sizes, or in an offset, which then is unaligned, past the end, or in another area.
pub fn disturb(random: &mut Random, geometry: &mut Geometry) {
    let z = geometry.sector_size;
    let sectors = z.wrapping_mul(random.up_to(3));
    let Geometry { boot, update, swap, .. } = *geometry;
    let beside = random.one_of(&[boot, update, swap]).wrapping_add(sectors);
    let offset = random.one_of(&[boot, update, swap]);
    let offset = if random.percent(50) { beside } else { near(random, offset, z) };
    match random.up_to(8) {
        0 => geometry.sector_size = wrong_sector_size(random, z),
        1 => geometry.sector_count = wrong_sector_count(random, geometry.sector_count, z),
        2 | 3 => geometry.boot = offset,
        4 | 5 => geometry.update = offset,
        _ => geometry.swap = offset,
    }
}

fn slot(random: &mut Random, geometry: &Geometry) -> usize {
    match random.one_of(&[Slot::Boot, Slot::Update]) {
        Slot::Boot => geometry.boot,
        Slot::Update => geometry.update,
    }
}

/// The start of a sector of the areas, at times of the one before or behind an area.
fn sector(random: &mut Random, geometry: &Geometry) -> usize {
    let Geometry { sector_size, sector_count, swap, .. } = *geometry;
    let any = random.up_to(sector_count.min(99));
    let i = random.one_of(&[any, any, 0, sector_count, sector_count.wrapping_add(1), usize::MAX]);
    let place = i.wrapping_mul(sector_size);
    match random.up_to(4) {
        0 => swap.wrapping_add(if random.percent(70) { 0 } else { place }),
        _ => slot(random, geometry).wrapping_add(place),
    }
}

/// A step that is often accepted; where not, it often misses by little.
pub fn step(random: &mut Random, geometry: &Geometry) -> RawStep {
    let Geometry { sector_size, sector_count, .. } = *geometry;
    let op = if random.percent(95) { random.up_to(3) as u32 } else { random.one_of(&[4, 5, 256, 1 << 31, u32::MAX]) };
    let trailer = slot(random, geometry).wrapping_add(sector_count.wrapping_mul(sector_size));
    let in_trailer = random.up_to(sector_size.min(4096));
    let at = match op {
        2 => trailer.wrapping_add(random.one_of(&[in_trailer, in_trailer, 0, sector_size.wrapping_sub(1)])),
        3 => trailer.wrapping_add(sector_size).wrapping_sub(4),
        _ => sector(random, geometry),
    };
    let at = if random.percent(75) { at } else { near(random, at, sector_size) };
    let to = if random.percent(10) { at } else { sector(random, geometry) };
    let to = if random.percent(85) { to } else { near(random, to, sector_size) };
    let value = if random.percent(90) { random.up_to(255) as u32 } else { random.number() as u32 };
    RawStep { op, at, to, value }
}

/// A flash's bytes: any, mostly FF, or mostly 00.
pub fn contents(random: &mut Random, n: usize) -> Vec<u8> {
    let bytes = random.bytes(n);
    match random.up_to(3) {
        0 => bytes.iter().map(|&byte| if byte < 230 { 0xff } else { byte }).collect(),
        1 => bytes.iter().map(|&byte| if byte < 230 { 0x00 } else { byte }).collect(),
        _ => bytes,
    }
}
