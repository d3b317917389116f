//! The loader's calls, each on a flash that it answers in its own way.
use crate::compare::compare;
use crate::{image, pattern};
use frondicare_tests::answers::{Answer, RawAnswer};
use frondicare_tests::decisions::{self, Signed};
use frondicare_tests::flash::{Geometry, Step};
use frondicare_tests::powered::two_slots;
use frondicare_tests::{header, loader, requests};
use std::hint::black_box;

pub const BOTH: Signed = Signed { boot: true, update: true };

/// The areas one behind the other, and the length of the flash.
pub fn packed(sector_size: usize, sector_count: usize) -> (Geometry, usize) {
    let slot = (sector_count + 1) * sector_size;
    (Geometry { sector_size, sector_count, boot: 0, update: slot, swap: 2 * slot }, 2 * slot + sector_size)
}

fn next_step(name: &str, calls: usize, flash: &[u8], geometry: &Geometry) -> Answer {
    compare(
        &format!("next step, {name}"),
        calls,
        || RawAnswer::from(decisions::next_step(black_box(flash), black_box(geometry), BOTH)),
        || loader::next_step(black_box(flash), black_box(geometry), BOTH),
    );
    decisions::next_step(flash, geometry, BOTH)
}

/// Images of 256 KiB, the one in UPDATE with the greater version.
fn update() {
    let (geometry, len) = packed(4096, 64);
    let firmware = pattern(256 * 1024 - header::SIZE as u32);
    let mut flash = two_slots(vec![0xff; len], &geometry, &image(5, &firmware), &image(6, &firmware));
    flash[geometry.swap - 5..geometry.swap].copy_from_slice(b"\x70BOOT");
    let answer = next_step("update of 256 KiB", 1, &flash, &geometry);
    assert_eq!(answer, Answer::Step(Step::Copy { from: geometry.update, to: geometry.swap }));
}

/// Mid-swap in the last of 64 sectors, so that every flag is read. It is about to be copied from BOOT to UPDATE.
fn mid_swap(sector_size: usize, calls: usize) {
    let (geometry, len) = packed(sector_size, 64);
    let mut flash = pattern(len as u32);
    let (state, last) = (geometry.swap - 5, 63 * sector_size);
    flash[state..geometry.swap].copy_from_slice(b"\x70BOOT");
    flash[state - 32..state].fill(0x00);
    flash[state - 32] = 0x70;
    flash[geometry.update + last..][..sector_size].fill(0xff);
    let name = format!("mid-swap, sectors of {sector_size} bytes");
    let answer = next_step(&format!("{name}, target blank"), calls, &flash, &geometry);
    assert_eq!(answer, Answer::Step(Step::Copy { from: last, to: geometry.update + last }));
    flash.copy_within(last..last + sector_size, geometry.update + last);
    let answer = next_step(&format!("{name}, equal"), calls, &flash, &geometry);
    assert_eq!(answer, Answer::Step(Step::Byte { at: state - 32, value: 0x30 }));
}

fn nothing_to_do() {
    let (geometry, len) = packed(256, 2);
    let flash = two_slots(vec![0xff; len], &geometry, &image(5, &pattern(256)), &[]);
    assert_eq!(next_step("nothing to do, 256 bytes of firmware", 2000, &flash, &geometry), Answer::Boot(0));
}

/// UPDATE's trailer is blank, so that all of it is read.
fn trigger(sector_size: usize, calls: usize) {
    let (geometry, len) = packed(sector_size, 2);
    let flash = vec![0xff; len];
    compare(
        &format!("trigger, trailer of {sector_size} bytes"),
        calls,
        || RawAnswer::from(requests::trigger(black_box(&flash), black_box(&geometry))),
        || loader::trigger(black_box(&flash), black_box(&geometry)),
    );
}

pub fn all() {
    update();
    for (sector_size, calls) in [(4096, 5000), (256, 50_000)] {
        mid_swap(sector_size, calls);
        trigger(sector_size, calls);
    }
    nothing_to_do();
}
