//! Faults in an image.
use crate::header::SIZE;
use crate::images::{SPECIAL_BYTES, SPECIAL_TYPES};
use crate::random::Random;

/// Another size: none, one beside the right one, or one that wraps when 256 is added in 32 bits.
fn change_size(random: &mut Random, image: &mut [u8]) {
    let (size, any) = ((image.len() - SIZE) as u32, random.number() as u32);
    let other = random.one_of(&[0, 1, size - 1, size, size + 1, 0xffff_ff00, 0xffff_ffff, any]);
    image[4..8].copy_from_slice(&other.to_le_bytes());
}

fn cut(random: &mut Random, image: &mut Vec<u8>) {
    let any = random.up_to(image.len());
    let n = random.one_of(&[any, 0, SIZE - 1, SIZE, SIZE + 1, image.len() - 1]);
    image.truncate(n);
}

/// One fault of any kind: in the header, the firmware or the length. An image without firmware stays as it is.
pub fn damage(random: &mut Random, image: &mut Vec<u8>) {
    if image.len() <= SIZE {
        return;
    }
    let (place, len) = (random.up_to(SIZE - 2), random.up_to(40));
    let run = place..SIZE.min(place + len);
    match random.up_to(9) {
        0 => image[place] ^= 1 << random.up_to(7),
        1 => image[place] = random.one_of(&SPECIAL_BYTES),
        2 => change_size(random, image),
        3 => *image.last_mut().unwrap() ^= 1 << random.up_to(7),
        4 => image[SIZE] ^= 1 << random.up_to(7),
        5 => cut(random, image),
        6 => image[random.up_to(3)] ^= 1 << random.up_to(7),
        7 => image[run].fill(random.one_of(&[0xff, 0x00])),
        8 => image[place..place + 2].copy_from_slice(&random.one_of(&SPECIAL_TYPES).to_le_bytes()),
        _ => image.copy_within(run.clone(), random.up_to(SIZE - run.len())),
    }
}
