//! One fault with a given number, in an image that `images::with` made.
use crate::header::{find_tag, DIGEST, FIRMWARE_TYPE, HINT, MANDATORY, SIGNATURE, SIZE, TIMESTAMP, VERSION};
use crate::random::Random;

fn content_place(image: &[u8], kind: u16) -> usize {
    find_tag(image, kind).expect("the writer wrote it").at
}

pub const NUMBERS: [u32; 8] = [11, 12, 13, 14, 15, 16, 17, 30];

/// Moves a tag that the digest has to cover behind the digest's, or behind the signature's.
fn uncover(random: &mut Random, image: &mut [u8]) {
    let (kind, len) = random.one_of(&[(VERSION, 4), (TIMESTAMP, 8), (FIRMWARE_TYPE, 2)]);
    let behind = random.one_of(&[(DIGEST, 32), (SIGNATURE, 64)]);
    let (start, end) = (content_place(image, kind) - 4, content_place(image, behind.0) + behind.1);
    image[start..end].rotate_left(4 + len);
}

/// Makes the image fail with one of NUMBERS. What follows the firmware belongs to the image too.
pub fn fail_with(random: &mut Random, image: &mut [u8], number: u32) {
    let (kind, len) = random.one_of(&MANDATORY);
    let (at, hint) = (content_place(image, kind), content_place(image, HINT));
    match number {
        11 => image[random.up_to(3)] ^= 1 << random.up_to(7),
        12 => {
            let past = (image.len() - SIZE) as u32 + 1;
            let size = random.one_of(&[0, past, past + 255, 0xffff_ff00, 0xffff_ffff]);
            image[4..8].copy_from_slice(&size.to_le_bytes());
        }
        // The length's high byte, the type's high byte, the hint's type.
        13 => image[at - 1] = 1 + random.up_to(254) as u8,
        14 => image[at - 3] = 1 + random.up_to(254) as u8,
        15 => image[hint - 4..hint - 2].copy_from_slice(&kind.to_le_bytes()),
        16 => {
            // What is cut off becomes padding, so that the walk goes on behind it.
            let short = random.up_to(len - 1);
            image[at - 2] = short as u8;
            image[at + short..at + len].fill(0xff);
        }
        30 => uncover(random, image),
        _ => {
            let last = SIZE - 1 + u32::from_le_bytes([image[4], image[5], image[6], image[7]]) as usize;
            let [digest, timestamp] = [DIGEST, TIMESTAMP].map(|kind| content_place(image, kind));
            image[random.one_of(&[SIZE, last, digest, digest + 31, timestamp])] ^= 1 << random.up_to(7);
        }
    }
}
