//! The C entries, as include/frondicare.h declares them. A slice is a pointer and then a length.
use crate::answers::RawAnswer;
use crate::runs::Counts;
use crate::states::SlotState;
use crate::writer::Fields;

/// What a lookup answers: where the content lies, or a number and 0, 0.
#[repr(C)]
#[derive(Clone, Copy, Debug, PartialEq)]
pub struct Tag {
    pub number: u32,
    pub at: usize,
    pub len: usize,
}

/// The same with the type and with where the next lookup goes on.
#[repr(C)]
#[derive(Clone, Copy, Debug, PartialEq)]
pub struct ListedTag {
    pub number: u32,
    pub kind: u16,
    pub at: usize,
    pub len: usize,
    pub next: usize,
}

impl ListedTag {
    pub fn refused(number: u32) -> ListedTag {
        ListedTag { number, kind: 0, at: 0, len: 0, next: 0 }
    }
}

/// The version, or a number and 0.
#[repr(C)]
#[derive(Clone, Copy, Debug, PartialEq)]
pub struct Version {
    pub number: u32,
    pub version: u32,
}

extern "C" {
    pub fn frondicare_digest(message: *const u8, message_len: usize, digest: &mut [u8; 32]) -> u32;
    pub fn frondicare_digest_of_two(
        first: *const u8,
        first_len: usize,
        second: *const u8,
        second_len: usize,
        digest: &mut [u8; 32],
    ) -> u32;
    pub fn frondicare_verify(image: *const u8, image_len: usize, signature_ok: bool) -> u32;
    pub fn frondicare_find_tag(header: *const u8, header_len: usize, kind: u16) -> Tag;
    pub fn frondicare_next_tag(header: *const u8, header_len: usize, from: usize, any: bool, kind: u16) -> ListedTag;
    pub fn frondicare_version_of(image: *const u8, image_len: usize) -> Version;
    pub fn frondicare_most_steps(sector_count: usize) -> u32;
    pub fn frondicare_add_step(counts: *mut Counts, op: u32) -> u32;
}

/// Entries of the writer: all take the parts of an image.
macro_rules! writing {
    ($(fn $name:ident($($before:ident: $first:ty,)* ..parts, $after:ident: $last:ty);)*) => {
        extern "C" {$(
            pub fn $name(
                $($before: $first,)*
                fields: Fields,
                firmware: *const u8, firmware_len: usize, custom: *const u8, custom_len: usize, hint: &[u8; 32],
                $after: $last,
            ) -> u32;
        )*}
    };
}

writing! {
    fn frondicare_digest_to_sign(..parts, digest: &mut [u8; 32]);
    fn frondicare_write_header(buffer: *mut u8, buffer_len: usize, ..parts, signature: &[u8; 64]);
}

/// Entries on a flash: all take its length and geometry.
macro_rules! on_flash {
    ($(fn $name:ident($($flash:ty,)? ..geometry $(, $more:ident: $type:ty)*) -> $answer:ty;)*) => {
        extern "C" {$(
            pub fn $name(
                $(flash: $flash,)?
                flash_len: usize, sector_size: usize, sector_count: usize, boot: usize, update: usize, swap: usize,
                $($more: $type,)*
            ) -> $answer;
        )*}
    };
}

on_flash! {
    fn frondicare_check_geometry(..geometry) -> u32;
    fn frondicare_apply_step(*mut u8, ..geometry, op: u32, at: usize, to: usize, value: u32) -> u32;
    fn frondicare_next_step(*const u8, ..geometry, boot_signed: bool, update_signed: bool) -> RawAnswer;
    fn frondicare_trigger(*const u8, ..geometry) -> RawAnswer;
    fn frondicare_confirm(*const u8, ..geometry) -> RawAnswer;
    fn frondicare_boot_state(*const u8, ..geometry) -> SlotState;
    fn frondicare_update_state(*const u8, ..geometry) -> SlotState;
    fn frondicare_in_mid_swap(*const u8, ..geometry) -> bool;
    fn frondicare_run(
        *mut u8, ..geometry, boot_signed: bool, update_signed: bool, most_steps: u32, counts: *mut Counts
    ) -> RawAnswer;
}
