//! The entries on messages, headers, images and steps, called on slices.
use crate::entries::*;
use crate::flash::Geometry;
use crate::raw_step::RawStep;
use crate::writer::Parts;

/// What a buffer holds before a call, so that a test sees whether it was written.
pub const PAINT: u8 = 0xa5;
pub const UNTOUCHED: [u8; 32] = [PAINT; 32];

fn raw(slice: &[u8]) -> (*const u8, usize) {
    (slice.as_ptr(), slice.len())
}

/// The number answered and the buffer afterwards.
pub fn digest(message: &[u8]) -> (u32, [u8; 32]) {
    let mut out = UNTOUCHED;
    let number = unsafe { frondicare_digest(message.as_ptr(), message.len(), &mut out) };
    (number, out)
}

pub fn digest_of_two(first: &[u8], second: &[u8]) -> (u32, [u8; 32]) {
    let mut out = UNTOUCHED;
    let number =
        unsafe { frondicare_digest_of_two(first.as_ptr(), first.len(), second.as_ptr(), second.len(), &mut out) };
    (number, out)
}

pub fn verify(image: &[u8], signature_ok: bool) -> u32 {
    unsafe { frondicare_verify(image.as_ptr(), image.len(), signature_ok) }
}

pub fn find_tag(header: &[u8], kind: u16) -> Tag {
    unsafe { frondicare_find_tag(header.as_ptr(), header.len(), kind) }
}

/// Of any type where that is None. The type's argument is then one that must not count.
pub fn next_tag(header: &[u8], from: usize, kind: Option<u16>) -> ListedTag {
    let ignored = from as u16;
    unsafe { frondicare_next_tag(header.as_ptr(), header.len(), from, kind.is_none(), kind.unwrap_or(ignored)) }
}

pub fn version_of(image: &[u8]) -> Version {
    unsafe { frondicare_version_of(image.as_ptr(), image.len()) }
}

/// The number answered and the buffer afterwards.
pub fn digest_to_sign(parts: &Parts) -> (u32, [u8; 32]) {
    let Parts { fields, firmware, custom, hint } = *parts;
    let ([(f, f_len), (c, c_len)], mut out) = ([firmware, custom].map(raw), UNTOUCHED);
    let number = unsafe { frondicare_digest_to_sign(fields, f, f_len, c, c_len, hint, &mut out) };
    (number, out)
}

/// The number answered and the buffer afterwards.
pub fn write_header(buffer_len: usize, parts: &Parts, signature: &[u8; 64]) -> (u32, Vec<u8>) {
    let Parts { fields, firmware, custom, hint } = *parts;
    let [(f, f_len), (c, c_len)] = [firmware, custom].map(raw);
    // Bytes that are not lent follow the buffer, and have to stay.
    let mut out = vec![PAINT; buffer_len + 64];
    let buffer = out.as_mut_ptr();
    let number = unsafe { frondicare_write_header(buffer, buffer_len, fields, f, f_len, c, c_len, hint, signature) };
    assert!(out[buffer_len..].iter().all(|&byte| byte == PAINT), "bytes after the buffer were written");
    out.truncate(buffer_len);
    (number, out)
}

pub fn check_geometry(flash_len: usize, geometry: &Geometry) -> u32 {
    let Geometry { sector_size, sector_count, boot, update, swap } = *geometry;
    unsafe { frondicare_check_geometry(flash_len, sector_size, sector_count, boot, update, swap) }
}

pub fn apply_step(flash: &mut [u8], geometry: &Geometry, step: impl Into<RawStep>) -> u32 {
    let Geometry { sector_size, sector_count, boot, update, swap } = *geometry;
    let RawStep { op, at, to, value } = step.into();
    let (flash, len) = (flash.as_mut_ptr(), flash.len());
    unsafe { frondicare_apply_step(flash, len, sector_size, sector_count, boot, update, swap, op, at, to, value) }
}
