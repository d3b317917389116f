//! The header of document 01, with of document 02, read plainly: what the library is compared with, and
//! what its speed is measured against.
//! An `Err` holds a number of the paper's table "Numbers given back".
use crate::sha256;

pub const SIZE: usize = 256;
/// The place of the first tag.
pub const FIRST: usize = 8;
pub const VERSION: u16 = 0x0001;
pub const TIMESTAMP: u16 = 0x0002;
pub const DIGEST: u16 = 0x0003;
pub const HINT: u16 = 0x0010;
pub const SIGNATURE: u16 = 0x0020;
pub const FIRMWARE_TYPE: u16 = 0x0030;

/// Type and length, in the order in which a verdict looks at them.
pub const MANDATORY: [(u16, usize); 5] =
    [(VERSION, 4), (TIMESTAMP, 8), (DIGEST, 32), (SIGNATURE, 64), (FIRMWARE_TYPE, 2)];

pub const MARK: [u8; 4] = [0x57, 0x4f, 0x4c, 0x46];

/// A tag: its type (`type` itself is a keyword), the place and length of its content, and where the walk goes on.
#[derive(Clone, Copy, Debug, PartialEq)]
pub struct Tag {
    pub kind: u16,
    pub at: usize,
    pub len: usize,
    pub next: usize,
}

/// The walk over a header's tags.
struct Tags<'a> {
    header: &'a [u8; SIZE],
    place: usize,
}

impl Iterator for Tags<'_> {
    type Item = Result<Tag, u32>;

    fn next(&mut self) -> Option<Result<Tag, u32>> {
        self.place += self.header[self.place..].iter().position(|&byte| byte != 0xff)?;
        let at = self.place + 4;
        let Some(&[k0, k1, l0, l1]) = self.header.get(self.place..at) else { return Some(Err(13)) };
        let (kind, len) = (u16::from_le_bytes([k0, k1]), u16::from_le_bytes([l0, l1]) as usize);
        if kind == 0 {
            return None;
        }
        if at + len > SIZE {
            return Some(Err(13));
        }
        self.place = at + len;
        Some(Ok(Tag { kind, at, len, next: self.place }))
    }
}

fn tags(header: &[u8; SIZE]) -> Tags<'_> {
    Tags { header, place: FIRST }
}

/// All tags in one walk, and the number that it ends with.
pub fn all_tags(header: &[u8; SIZE]) -> (Vec<Tag>, u32) {
    let mut list = vec![];
    for tag in tags(header) {
        match tag {
            Ok(tag) => list.push(tag),
            Err(number) => return (list, number),
        }
    }
    (list, 25)
}

/// The first tag from a place on, of a type or, where that is None, of any.
pub fn next_tag(header: &[u8], from: usize, kind: Option<u16>) -> Result<Tag, u32> {
    let header = header.first_chunk().ok_or(10u32)?;
    if !(FIRST..=SIZE).contains(&from) {
        return Err(31);
    }
    for tag in (Tags { header, place: from }) {
        let tag = tag?;
        if kind.unwrap_or(tag.kind) == tag.kind {
            return Ok(tag);
        }
    }
    Err(25)
}

/// The first tag of a type.
pub fn find_tag(header: &[u8], kind: u16) -> Result<Tag, u32> {
    next_tag(header, FIRST, Some(kind))
}

/// The content of the first tag of a type, empty where there is none.
pub fn view(header: &[u8], kind: u16) -> &[u8] {
    find_tag(header, kind).map_or(&[], |tag| &header[tag.at..][..tag.len])
}

/// Numbers 13 to 16, and 30. Gives the contents' places, in MANDATORY's order.
fn mandatory(header: &[u8; SIZE]) -> Result<[usize; 5], u32> {
    let mut found: [Option<Tag>; 5] = [None; 5];
    let mut repeated = [false; 5];
    for tag in tags(header) {
        let tag = tag?;
        if let Some(i) = MANDATORY.iter().position(|&(kind, _)| kind == tag.kind) {
            repeated[i] = found[i].is_some();
            found[i].get_or_insert(tag);
        }
    }
    let mut places = [0; 5];
    for (i, (_, len)) in MANDATORY.into_iter().enumerate() {
        let tag = found[i].ok_or(14u32)?;
        if repeated[i] {
            return Err(15);
        }
        if tag.len != len {
            return Err(16);
        }
        places[i] = tag.at;
    }
    let [version, timestamp, digest, _, firmware_type] = places;
    if digest < version.max(timestamp).max(firmware_type) {
        return Err(30);
    }
    Ok(places)
}

/// An image that passed checks 10 to 16 and 30, with the contents' places.
struct Checked<'a> {
    header: &'a [u8; SIZE],
    firmware: &'a [u8],
    places: [usize; 5],
}

fn check(image: &[u8]) -> Result<Checked<'_>, u32> {
    let (header, rest) = image.split_first_chunk().ok_or(10u32)?;
    if header[..4] != MARK {
        return Err(11);
    }
    let size = u32::from_le_bytes([header[4], header[5], header[6], header[7]]) as usize;
    if size == 0 || size > rest.len() {
        return Err(12);
    }
    Ok(Checked { header, firmware: &rest[..size], places: mandatory(header)? })
}

/// The version of an image that passes checks 10 to 16 and 30.
pub fn version(image: &[u8]) -> Result<u32, u32> {
    let Checked { header, places: [at, ..], .. } = check(image)?;
    Ok(u32::from_le_bytes([header[at], header[at + 1], header[at + 2], header[at + 3]]))
}

/// The verdict.
pub fn verify(image: &[u8], signature_ok: bool) -> Result<(), u32> {
    let Checked { header, firmware, places: [_, _, at, ..] } = check(image)?;
    if sha256::digest_of_two(&header[..at - 4], firmware) != header[at..at + 32] {
        return Err(17);
    }
    if signature_ok {
        Ok(())
    } else {
        Err(18)
    }
}
