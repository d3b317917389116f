//! A whole update by the bounded run, each time from the same flash.
use crate::compare::compare;
use crate::loader_calls::{packed, BOTH};
use crate::{image, pattern};
use frondicare_tests::answers::{Answer, RawAnswer};
use frondicare_tests::flash::Geometry;
use frondicare_tests::powered::two_slots;
use frondicare_tests::runs::{self, Counts, MOST_STEPS};
use frondicare_tests::{header, runner};
use std::hint::black_box;

/// A triggered update: images as long as their slots, no two sectors alike, and nothing erased beforehand.
fn staged(geometry: &Geometry, len: usize) -> Vec<u8> {
    let size = geometry.sector_count * geometry.sector_size - header::SIZE;
    let (old, new) = (pattern(size as u32), pattern(2 * size as u32));
    let mut flash = two_slots(pattern(len as u32), geometry, &image(5, &old), &image(6, &new[size..]));
    flash[geometry.swap - geometry.sector_size..geometry.swap - 5].fill(0xff);
    flash[geometry.swap - 5..geometry.swap].copy_from_slice(b"\x70BOOT");
    flash
}

/// What a run answers and leaves: compared once, so that both sides do the same work.
fn update(sector_size: usize, sector_count: usize, calls: usize) {
    let (geometry, len) = packed(sector_size, sector_count);
    let flash = staged(&geometry, len);
    let (mut plain, mut proved) = (flash.clone(), flash.clone());
    compare(
        &format!("update by a run, {sector_count} sectors of {sector_size} bytes"),
        calls,
        || {
            plain.copy_from_slice(&flash);
            let mut counts = Counts::default();
            let answer = runs::run(black_box(&mut plain), black_box(&geometry), BOTH, MOST_STEPS, &mut counts);
            (RawAnswer::from(answer), counts)
        },
        || {
            proved.copy_from_slice(&flash);
            let mut counts = Counts::default();
            let answer = runner::run(black_box(&mut proved), black_box(&geometry), BOTH, MOST_STEPS, &mut counts);
            (answer, counts)
        },
    );
    assert_eq!(plain, proved);
    let mut counts = Counts::default();
    let answer = runs::run(&mut flash.clone(), &geometry, BOTH, MOST_STEPS, &mut counts);
    assert_eq!((answer, counts.since(&Counts::default())), (Answer::Boot(0), 9 * sector_count + 4));
}

/// How the time grows with the number of sectors and with their size.
pub fn all() {
    for (sector_size, sector_count, calls) in
        [(4096, 64, 1), (4096, 16, 2), (4096, 4, 10), (1024, 64, 2), (256, 64, 10), (256, 16, 50), (256, 4, 200)]
    {
        update(sector_size, sector_count, calls);
    }
}
