//! What the image sectors of the two slots hold.
use super::faults;
use crate::header::SIZE;
use crate::random::Random;
use crate::writer::Fields;
use crate::{images, layouts};

/// Equal, neighbours, different in one bit, in the lowest or the highest byte, or any two.
fn versions(random: &mut Random) -> [u32; 2] {
    let any = random.number() as u32;
    let first = random.one_of(&[any, any, 0, 0, 1, 0xff, 0x100, 0x7fff_ffff, 0x8000_0000, u32::MAX]);
    let byte = random.up_to(255) as u32;
    let second = match random.up_to(5) {
        0 => first,
        1 => first.wrapping_add(1),
        2 => first.wrapping_sub(1),
        3 => first ^ 1 << random.up_to(31),
        4 => first ^ byte << random.one_of(&[0, 24]),
        _ => random.number() as u32,
    };
    if random.percent(50) {
        [first, second]
    } else {
        [second, first]
    }
}

/// An image in so many bytes that passes, fails with a number that is chosen, or is any.
fn image(random: &mut Random, version: u32, room: usize) -> Vec<u8> {
    let rest = layouts::contents(random, room);
    if room == SIZE || random.percent(10) {
        return images::any(random).into_iter().chain(rest).take(room).collect();
    }
    let some = 1 + random.up_to(room - SIZE - 1);
    let firmware_len = random.one_of(&[some, 1, room - SIZE]);
    let fields = Fields { version, ..images::fields(random) };
    let mut image = images::with(random, fields, firmware_len);
    image.extend_from_slice(&rest[image.len()..]);
    if random.percent(30) {
        let number = random.one_of(&faults::NUMBERS);
        faults::fail_with(random, &mut image, number);
    }
    image
}

/// BOOT's and UPDATE's, each of so many bytes.
pub fn two(random: &mut Random, room: usize) -> [Vec<u8>; 2] {
    versions(random).map(|version| image(random, version, room))
}
