//! Entries on messages, headers and images.
use crate::slices::{to_read, to_write};
use frondicare_tests::entries::{ListedTag, Tag, Version};
use frondicare_tests::writer::{Fields, Parts};
use frondicare_tests::{header, sha256, writer};

/// The longest message that has a digest.
const MOST: usize = u32::MAX as usize;

/// Stores a digest and gives 0, or gives its number.
fn store(answer: Result<[u8; 32], u32>, digest: &mut [u8; 32]) -> u32 {
    match answer {
        Ok(bytes) => *digest = bytes,
        Err(number) => return number,
    }
    0
}

#[no_mangle]
unsafe extern "C" fn plain_digest(message: *const u8, message_len: usize, digest: &mut [u8; 32]) -> u32 {
    if message_len > MOST {
        return 12;
    }
    store(Ok(sha256::digest(to_read(message, message_len))), digest)
}

#[no_mangle]
unsafe extern "C" fn plain_digest_of_two(
    first: *const u8,
    first_len: usize,
    second: *const u8,
    second_len: usize,
    digest: &mut [u8; 32],
) -> u32 {
    if first_len + second_len > MOST {
        return 12;
    }
    let pieces = (to_read(first, first_len), to_read(second, second_len));
    store(Ok(sha256::digest_of_two(pieces.0, pieces.1)), digest)
}

#[no_mangle]
unsafe extern "C" fn plain_verify(image: *const u8, image_len: usize, signature_ok: bool) -> u32 {
    header::verify(to_read(image, image_len), signature_ok).err().unwrap_or(0)
}

#[no_mangle]
unsafe extern "C" fn plain_find_tag(header: *const u8, header_len: usize, kind: u16) -> Tag {
    match header::find_tag(to_read(header, header_len), kind) {
        Ok(header::Tag { at, len, .. }) => Tag { number: 0, at, len },
        Err(number) => Tag { number, at: 0, len: 0 },
    }
}

#[no_mangle]
unsafe extern "C" fn plain_next_tag(
    header: *const u8,
    header_len: usize,
    from: usize,
    any: bool,
    kind: u16,
) -> ListedTag {
    match header::next_tag(to_read(header, header_len), from, (!any).then_some(kind)) {
        Ok(header::Tag { kind, at, len, next }) => ListedTag { number: 0, kind, at, len, next },
        Err(number) => ListedTag::refused(number),
    }
}

#[no_mangle]
unsafe extern "C" fn plain_version_of(image: *const u8, image_len: usize) -> Version {
    match header::version(to_read(image, image_len)) {
        Ok(version) => Version { number: 0, version },
        Err(number) => Version { number, version: 0 },
    }
}

/// An entry of the writer, which takes the parts of an image.
macro_rules! writing {
    (fn $name:ident($($before:ident: $first:ty,)* ..$parts:ident, $after:ident: $last:ty) $body:block) => {
        #[no_mangle]
        unsafe extern "C" fn $name(
            $($before: $first,)*
            fields: Fields,
            firmware: *const u8, firmware_len: usize, custom: *const u8, custom_len: usize, hint: &[u8; 32],
            $after: $last,
        ) -> u32 {
            let (firmware, custom) = (to_read(firmware, firmware_len), to_read(custom, custom_len));
            let $parts = Parts { fields, firmware, custom, hint };
            $body
        }
    };
}

writing! {
    fn plain_digest_to_sign(..parts, digest: &mut [u8; 32]) {
        store(writer::digest_to_sign(&parts), digest)
    }
}

writing! {
    fn plain_write_header(buffer: *mut u8, buffer_len: usize, ..parts, signature: &[u8; 64]) {
        let buffer = to_write(buffer, buffer_len);
        writer::write_header(buffer, &parts, signature).err().unwrap_or(0)
    }
}
