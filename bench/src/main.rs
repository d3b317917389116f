//! The library's calls against plain Rust ones: the same bytes, both optimized, in one process, turn about, the median
//! of 21 runs each. No buffer is cleared between runs. Prints the times of a call and their ratio.
mod compare;
mod loader_calls;
mod run_calls;
mod tag_calls;

use compare::compare;
use frondicare_tests::flash::{self, Geometry, Step};
use frondicare_tests::frondicare::{self, PAINT};
use frondicare_tests::writer::{self, Fields, Parts};
use frondicare_tests::{header, sha256};
use std::hint::black_box;

const FIELDS: Fields = Fields { version: 5, timestamp: 1_700_000_000, firmware_type: 0x0201 };
const HINT: [u8; 32] = [0x11; 32];
const SIGNATURE: [u8; 64] = [0x22; 64];

fn pattern(n: u32) -> Vec<u8> {
    (0..n).map(|i| (i.wrapping_mul(2654435761) >> 24) as u8).collect()
}

fn parts(firmware: &[u8]) -> Parts<'_> {
    Parts { fields: FIELDS, firmware, custom: &[], hint: &HINT }
}

fn plain_header(parts: &Parts) -> (u32, Vec<u8>) {
    let mut buffer = vec![PAINT; header::SIZE];
    let number = writer::write_header(&mut buffer, parts, &SIGNATURE).err().unwrap_or(0);
    (number, buffer)
}

/// An image that passes.
fn image(version: u32, firmware: &[u8]) -> Vec<u8> {
    let parts = Parts { fields: Fields { version, ..FIELDS }, ..parts(firmware) };
    let image = [plain_header(&parts).1, firmware.to_vec()].concat();
    assert_eq!(header::verify(&image, true), Ok(()));
    image
}

fn digests(image: &[u8]) {
    let (first, second) = image.split_at(70);
    let plain = || (0, sha256::digest(black_box(image)));
    compare("digest, 256 KiB", 1, plain, || frondicare::digest(black_box(image)));
    compare("digest of two pieces, 70 bytes and the rest", 1, plain, || {
        frondicare::digest_of_two(black_box(first), black_box(second))
    });
}

fn verdict(name: &str, calls: usize, firmware: &[u8]) {
    let image = image(FIELDS.version, firmware);
    compare(
        name,
        calls,
        || header::verify(black_box(&image), true).err().unwrap_or(0),
        || frondicare::verify(black_box(&image), true),
    );
}

/// A copy onto SWAP and its erase, each on a flash of its own. A later call writes the same bytes again.
fn steps(sector_size: usize, calls: usize) {
    let geometry = Geometry { sector_size, sector_count: 2, boot: 0, update: 3 * sector_size, swap: 6 * sector_size };
    let (from, to) = (geometry.boot, geometry.swap);
    for (name, step) in [("copy", Step::Copy { from, to }), ("erase", Step::Erase { at: to })] {
        let mut plain = pattern(7 * sector_size as u32);
        let mut proved = plain.clone();
        compare(
            &format!("{name}, sector of {sector_size} bytes"),
            calls,
            || flash::apply(black_box(&mut plain), black_box(&geometry), black_box(step)).err().unwrap_or(0),
            || frondicare::apply_step(black_box(&mut proved), black_box(&geometry), black_box(step)),
        );
        assert_eq!(plain, proved, "{name}");
    }
}

fn main() {
    let firmware = pattern(256 * 1024);
    digests(&firmware);
    verdict("verify, image of 256 KiB", 1, &firmware[header::SIZE..]);
    verdict("verify, 256 bytes of firmware", 2000, &firmware[..256]);
    compare(
        "write header, 256 KiB of firmware",
        1,
        || plain_header(&parts(black_box(&firmware))),
        || frondicare::write_header(header::SIZE, &parts(black_box(&firmware)), &SIGNATURE),
    );
    tag_calls::all_calls(&image(FIELDS.version, &firmware[..256]));
    steps(4096, 20_000);
    steps(256, 200_000);
    loader_calls::all();
    run_calls::all();
}
