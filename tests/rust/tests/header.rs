//! The library's verdict and lookup against the plain ones, on random and damaged images.
use frondicare_tests::entries::Tag;
use frondicare_tests::frondicare;
use frondicare_tests::header::{self, DIGEST, FIRMWARE_TYPE, MANDATORY, SIGNATURE, SIZE, TIMESTAMP, VERSION};
use frondicare_tests::images::{self, SPECIAL_TYPES};
use frondicare_tests::random::Random;
use frondicare_tests::seen::Seen;
use frondicare_tests::{hex, writer};

fn number<T>(answer: Result<T, u32>) -> u32 {
    answer.err().unwrap_or(0)
}

fn plain_find_tag(bytes: &[u8], kind: u16) -> Tag {
    match header::find_tag(bytes, kind) {
        Ok(tag) => Tag { number: 0, at: tag.at, len: tag.len },
        Err(number) => Tag { number, at: 0, len: 0 },
    }
}

fn same_verdict(image: &[u8], signature_ok: bool) -> u32 {
    let expected = number(header::verify(image, signature_ok));
    assert_eq!(frondicare::verify(image, signature_ok), expected, "signature {signature_ok}, {}", hex(image));
    expected
}

fn same_lookup(bytes: &[u8], kind: u16) -> Tag {
    let expected = plain_find_tag(bytes, kind);
    assert_eq!(frondicare::find_tag(bytes, kind), expected, "type {kind:04x}, {}", hex(bytes));
    expected
}

#[test]
fn verdicts() {
    let mut random = Random::new();
    let mut seen = Seen::default();
    for _ in 0..60_000 {
        let image = images::any(&mut random);
        seen.add(same_verdict(&image, random.percent(90)));
    }
    seen.each(500, &[0, 10, 11, 12, 13, 14, 15, 16, 17, 18, 30]);
}

/// Every named type, the special ones, a random one, and the one at 34, where a written header has its first custom tag.
#[test]
fn lookups() {
    let mut random = Random::new();
    let mut seen = Seen::default();
    for _ in 0..30_000 {
        let image = images::any(&mut random);
        let custom = image.get(34..36).map_or(0, |bytes| u16::from_le_bytes([bytes[0], bytes[1]]));
        for kind in writer::NAMED.into_iter().chain(SPECIAL_TYPES).chain([random.number() as u16, custom]) {
            seen.add(same_lookup(&image, kind).number);
        }
    }
    seen.each(5000, &[0, 10, 13, 25]);
}

/// A lookup of 0000 or of a low byte FF never finds a tag, and still meets a bad one.
#[test]
fn lookups_of_types_that_cannot_occur() {
    let mut random = Random::new();
    let mut seen = Seen::default();
    for _ in 0..30_000 {
        let image = images::any(&mut random);
        let kind = if random.percent(50) { 0x0000 } else { random.number() as u16 | 0x00ff };
        seen.add(same_lookup(&image, kind).number);
    }
    seen.each(500, &[10, 13, 25]);
}

/// Every length of slice, of whole images and of headers alone.
#[test]
fn every_length() {
    let mut random = Random::new();
    for _ in 0..50 {
        let image = images::written(&mut random);
        for n in 0..=image.len() {
            let verdict = same_verdict(&image[..n], true);
            assert_eq!(verdict == 10, n < SIZE, "length {n}");
            for (kind, len) in MANDATORY {
                let tag = same_lookup(&image[..n], kind);
                assert_eq!((tag.number, tag.len), if n < SIZE { (10, 0) } else { (0, len) }, "length {n}");
            }
        }
    }
}

/// One tag at every place with every length, all else FF: found where it ends by 256, also in a longer slice.
#[test]
fn every_place() {
    for n in [SIZE, SIZE + 300] {
        for place in 8..=SIZE - 4 {
            for len in 0..=SIZE + 1 {
                let mut bytes = vec![0xff; n];
                bytes[place..place + 4].copy_from_slice(&[0x34, 0x12, len as u8, (len >> 8) as u8]);
                let fits = place + 4 + len <= SIZE;
                let expected = if fits { (0, place + 4, len) } else { (13, 0, 0) };
                let Tag { number, at, len } = frondicare::find_tag(&bytes, 0x1234);
                assert_eq!((number, at, len), expected, "place {place}");
                assert_eq!(frondicare::find_tag(&bytes, 0x1235).number, if fits { 25 } else { 13 }, "place {place}");
            }
        }
    }
}

/// Every byte value at the last places, all else FF: from 253 on anything but FF is 13.
#[test]
fn every_byte_near_the_end() {
    for place in 244..SIZE {
        for byte in 0..=0xff {
            let mut bytes = vec![0xff; SIZE];
            bytes[place] = byte;
            let tag = same_lookup(&bytes, 0x0001);
            assert!(place < 253 || tag.number == if byte == 0xff { 25 } else { 13 }, "byte {byte:02x} at {place}");
        }
    }
}

/// The greatest size, all zeros. Header and firmware pass 4,294,967,295 bytes together, and still have their digest.
/// It is that of coreutils, with the mark, the size and three tags of zeros before the firmware:
/// { printf 'WOLF\377\377\377\377\1\0\4\0\0\0\0\0\2\0\10\0\0\0\0\0\0\0\0\0\60\0\2\0\0\0';
/// head -c 4294967295 /dev/zero; } | sha256sum
#[test]
fn greatest_size() {
    const PRINTED: &str = "200c99a26130cb3db6cb9a265c417a857be6bc8875f4f9a9c43c23d6e46300a9";
    const DIGEST_AT: usize = 38;
    let mut image = vec![0u8; SIZE + 0xffff_ffff];
    image[..8].copy_from_slice(b"WOLF\xff\xff\xff\xff");
    let mut place = 8;
    for (kind, len) in [(VERSION, 4), (TIMESTAMP, 8), (FIRMWARE_TYPE, 2), (DIGEST, 32), (SIGNATURE, 64)] {
        image[place..place + 2].copy_from_slice(&kind.to_le_bytes());
        image[place + 2] = len;
        place += 4 + len as usize;
    }
    for (i, byte) in image[DIGEST_AT..DIGEST_AT + 32].iter_mut().enumerate() {
        *byte = u8::from_str_radix(&PRINTED[2 * i..2 * i + 2], 16).unwrap();
    }
    assert_eq!(frondicare::verify(&image[..SIZE + 0xffff_fffe], true), 12);
    assert_eq!(frondicare::verify(&image, true), 0);
}
