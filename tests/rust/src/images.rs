//! Random images: as the writer makes them, laid out tag by tag, and noise; some of them damaged.
use crate::damage;
use crate::header::{DIGEST, FIRMWARE_TYPE, HINT, MANDATORY, MARK, SIZE, TIMESTAMP, VERSION};
use crate::random::Random;
use crate::sha256;
use crate::writer::{self, Fields, Parts};

/// Bytes that decide something in a header's walk.
pub const SPECIAL_BYTES: [u8; 10] = [0xff, 0x00, 0x01, 0x02, 0x03, 0x04, 0x08, 0x10, 0x20, 0x30];
/// Types that are easily mistaken: for padding, for the end, for a mandatory one.
pub const SPECIAL_TYPES: [u16; 12] =
    [0x0000, 0x00ff, 0x01ff, 0x34ff, 0xffff, 0xff34, 0xff01, 0x0100, 0x0300, 0x0004, 0x0021, 0x0130];

pub fn fields(random: &mut Random) -> Fields {
    Fields { version: random.number() as u32, timestamp: random.number(), firmware_type: random.number() as u16 }
}

/// A type that a custom tag may have.
fn free_type(random: &mut Random) -> u16 {
    loop {
        let kind = if random.percent(30) { random.one_of(&SPECIAL_TYPES) } else { random.number() as u16 };
        if kind != 0 && kind & 0xff != 0xff && !writer::NAMED.contains(&kind) {
            return kind;
        }
    }
}

/// A well-formed custom run of at most `most` bytes, often of exactly so many.
pub fn custom_run(random: &mut Random, most: usize) -> Vec<u8> {
    let mut run: Vec<u8> = vec![];
    let mut kind = free_type(random);
    while most - run.len() >= 4 && random.percent(70) {
        let left = most - run.len() - 4;
        let len = if random.percent(20) { left } else { random.up_to(left.min(20)) };
        run.extend_from_slice(&kind.to_le_bytes());
        run.extend_from_slice(&(len as u16).to_le_bytes());
        run.extend(random.bytes(len));
        if random.percent(70) {
            kind = free_type(random);
        }
    }
    run
}

/// An image as the writer makes it.
pub fn with(random: &mut Random, fields: Fields, firmware_len: usize) -> Vec<u8> {
    let custom = custom_run(random, writer::MOST_CUSTOM);
    let (hint, signature) = (random.array(), random.array());
    let firmware = random.bytes(firmware_len);
    let mut image = vec![0; SIZE];
    let parts = Parts { fields, firmware: &firmware, custom: &custom, hint: &hint };
    writer::write_header(&mut image, &parts, &signature).expect("the parts are well formed");
    image.extend(firmware);
    image
}

/// The same with any fields, at times with bytes after the firmware.
pub fn written(random: &mut Random) -> Vec<u8> {
    let (fields, n) = (fields(random), 1 + random.up_to(300));
    let mut image = with(random, fields, n);
    let after = random.up_to(3) * random.up_to(20);
    image.extend(random.bytes(after));
    image
}

/// Puts the digest where the last tag stands that it has to cover; that one comes to the digest's place.
fn cover(list: &mut [(u16, usize)]) {
    let digest = list.iter().position(|tag| tag.0 == DIGEST);
    let last = list.iter().rposition(|tag| [VERSION, TIMESTAMP, FIRMWARE_TYPE].contains(&tag.0));
    if let (Some(digest), Some(last)) = (digest, last) {
        list.swap(digest, last.max(digest));
    }
}

/// Types and lengths: the mandatory ones in any order, mostly all covered; others between them; at times one missing,
/// repeated or of wrong length.
fn tag_list(random: &mut Random) -> Vec<(u16, usize)> {
    let mut list = MANDATORY.to_vec();
    for _ in 0..random.up_to(2) {
        let i = random.up_to(list.len() - 1);
        match random.up_to(9) {
            0 => drop(list.remove(i)),
            1 => list.push(list[i]),
            2 => list[i].1 = (list[i].1 + random.up_to(2)).saturating_sub(1),
            3 => list[i].1 = random.up_to(70),
            4 => list.push((random.one_of(&SPECIAL_TYPES), random.up_to(8))),
            5 => list.push((HINT, random.one_of(&[0, 31, 32]))),
            6 => list.push((free_type(random), random.up_to(8))),
            _ => (),
        }
    }
    for i in (1..list.len()).rev() {
        list.swap(i, random.up_to(i));
    }
    if random.percent(75) {
        cover(&mut list);
    }
    list
}

/// An image from a list of tags, with padding between them. The last tag often ends at 256, or passes it by one.
pub fn laid_out(random: &mut Random) -> Vec<u8> {
    let list = tag_list(random);
    let room = (SIZE - 8).saturating_sub(list.iter().map(|tag| 4 + tag.1).sum());
    let some = random.up_to(room);
    let mut padding = random.one_of(&[0, some, room, room, room + 1]);
    let n = 1 + random.up_to(300);
    let firmware = random.bytes(n);
    let mut image = [&MARK[..], &(n as u32).to_le_bytes()].concat();
    let mut digest_at = None;
    for (i, &(kind, len)) in list.iter().enumerate() {
        let here = if i + 1 == list.len() { padding } else { random.up_to(padding) };
        padding -= here;
        image.resize(image.len() + here, 0xff);
        if kind == DIGEST && len == 32 {
            digest_at.get_or_insert(image.len());
        }
        image.extend_from_slice(&kind.to_le_bytes());
        image.extend_from_slice(&(len as u16).to_le_bytes());
        image.extend(random.bytes(len));
    }
    image.resize(SIZE, 0xff);
    if let Some(place) = digest_at.filter(|place| place + 36 <= SIZE) {
        let digest = sha256::digest_of_two(&image[..place], &firmware);
        image[place + 4..place + 36].copy_from_slice(&digest);
    }
    image.extend(firmware);
    image
}

/// A header of random or of special bytes, mostly with the right mark and size.
pub fn noise(random: &mut Random) -> Vec<u8> {
    let n = SIZE + 1 + random.up_to(100);
    let special = random.one_of(&[0, 50, 90, 100]);
    let padding = random.one_of(&[0, 50, 90]);
    let mut image = random.bytes(n);
    for byte in &mut image[..SIZE] {
        if random.percent(special) {
            *byte = random.one_of(&SPECIAL_BYTES);
        }
        if random.percent(padding) {
            *byte = 0xff;
        }
    }
    if random.percent(95) {
        image[..4].copy_from_slice(&MARK);
        image[4..8].copy_from_slice(&1u32.to_le_bytes());
    }
    image
}

/// One of these, damaged in two of five.
pub fn any(random: &mut Random) -> Vec<u8> {
    let mut image = match random.up_to(9) {
        0..=3 => written(random),
        4..=8 => laid_out(random),
        _ => noise(random),
    };
    if random.percent(40) {
        for _ in 0..=random.up_to(2) {
            damage::damage(random, &mut image);
        }
    }
    image
}
