//! Slices as C lends them: a pointer may be null where its length is 0.
use std::slice::{from_raw_parts, from_raw_parts_mut};

pub unsafe fn to_read<'a>(at: *const u8, len: usize) -> &'a [u8] {
    if at.is_null() {
        return &[];
    }
    from_raw_parts(at, len)
}

pub unsafe fn to_write<'a>(at: *mut u8, len: usize) -> &'a mut [u8] {
    if at.is_null() {
        return &mut [];
    }
    from_raw_parts_mut(at, len)
}
