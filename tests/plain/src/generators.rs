//! Random input. The same seed gives the same.
use frondicare_tests::decisions::Signed;
use frondicare_tests::flash::Geometry;
use frondicare_tests::random::Random;
use frondicare_tests::raw_step::RawStep;
use frondicare_tests::{boards, custom_runs, images, layouts};
use std::slice::from_raw_parts_mut;

/// `plain_board`.
#[repr(C)]
struct Board {
    geometry: Geometry,
    signed: Signed,
    flash_len: usize,
}

/// Puts bytes at the start of the caller's room and gives their number.
unsafe fn put(bytes: &[u8], room: *mut u8, room_len: usize) -> usize {
    from_raw_parts_mut(room, room_len)[..bytes.len()].copy_from_slice(bytes);
    bytes.len()
}

#[no_mangle]
unsafe extern "C" fn plain_random_board(seed: u64, room: *mut u8, room_len: usize) -> Board {
    let boards::Board { geometry, flash, signed } = boards::for_a_run(&mut Random::seeded(seed));
    Board { geometry, signed, flash_len: put(&flash, room, room_len) }
}

#[no_mangle]
extern "C" fn plain_random_step(seed: u64, geometry: &Geometry) -> RawStep {
    layouts::step(&mut Random::seeded(seed), geometry)
}

#[no_mangle]
unsafe extern "C" fn plain_random_image(seed: u64, room: *mut u8, room_len: usize) -> usize {
    put(&images::any(&mut Random::seeded(seed)), room, room_len)
}

#[no_mangle]
unsafe extern "C" fn plain_random_custom_run(seed: u64, room: *mut u8, room_len: usize) -> usize {
    put(&custom_runs::any(&mut Random::seeded(seed)), room, room_len)
}
