//! The library's check of a geometry against the plain one, and against counting which area holds a sector.
use frondicare_tests::flash::Geometry;
use frondicare_tests::frondicare;
use frondicare_tests::layouts::{self, SECTOR_SIZES};
use frondicare_tests::paper::G;
use frondicare_tests::random::Random;
use frondicare_tests::seen::Seen;

fn same_number(flash_len: usize, geometry: &Geometry) -> u32 {
    let expected = geometry.areas(flash_len).err().unwrap_or(0);
    assert_eq!(frondicare::check_geometry(flash_len, geometry), expected, "{geometry:?}, flash of {flash_len}");
    expected
}

/// An area of this geometry, whose sizes are right, ends at 2^64 or after it.
fn passes_top(geometry: &Geometry) -> bool {
    let Geometry { sector_size, sector_count, boot, update, swap } = *geometry;
    let slot = sector_size * (sector_count + 1);
    [(boot, slot), (update, slot), (swap, sector_size)].iter().any(|(start, size)| start.checked_add(*size).is_none())
}

/// Low, or so high that the areas end just below 2^64.
fn any_start(random: &mut Random, (sector_size, sector_count): (usize, usize)) -> usize {
    let most = 2 * (sector_count + 1) + 1 + 9;
    let low = sector_size * random.up_to(5);
    let high = (sector_size * (most + 1)).wrapping_neg();
    random.one_of(&[0, low, high])
}

fn any_geometry(random: &mut Random) -> (usize, Geometry) {
    let sizes = layouts::sizes(random, 64);
    let start = any_start(random, sizes);
    let (mut geometry, end) = layouts::placed(random, sizes, start);
    let after = random.up_to(10_000);
    let flash_len = match random.up_to(9) {
        0 => end - 1,
        1 => end.saturating_add(1),
        2 => end.saturating_add(after),
        3 => usize::MAX,
        4 => end.saturating_sub(after),
        _ => end,
    };
    for _ in 0..random.one_of(&[0, 0, 1, 1, 2]) {
        layouts::disturb(random, &mut geometry);
    }
    (flash_len, geometry)
}

#[test]
fn geometries() {
    let mut random = Random::new();
    let (mut seen, mut accepted_sizes) = (Seen::default(), Seen::default());
    let (mut high, mut past_top) = (0, 0);
    for _ in 0..100_000 {
        let (flash_len, geometry) = any_geometry(&mut random);
        let number = same_number(flash_len, &geometry);
        seen.add(number);
        if number == 0 {
            accepted_sizes.add(geometry.sector_size as u32);
            high += usize::from(geometry.boot > usize::MAX / 2);
        }
        past_top += usize::from(number == 3 && passes_top(&geometry));
    }
    seen.each(3000, &[0, 1, 2, 3, 4]);
    accepted_sizes.each(3000, &SECTOR_SIZES.map(|size| size as u32));
    assert!(high > 3000 && past_top > 1000, "near 2^64: {high} accepted, {past_top} that pass it");
}

/// Document 01's bench cases.
#[test]
fn bench_cases() {
    assert_eq!(same_number(1792, &G), 0);
    assert_eq!(same_number(1791, &G), 3);
    assert_eq!(same_number(1792, &Geometry { swap: 1280, ..G }), 4);
    for (sector_count, number) in [(0, 2), (1, 0), (64, 0), (65, 2)] {
        let slot = 256 * (sector_count + 1);
        let geometry = Geometry { sector_size: 256, sector_count, boot: 0, update: slot, swap: 2 * slot };
        assert_eq!(same_number(2 * slot + 256, &geometry), number, "n {sector_count}");
    }
}

/// Every sector size to 10,000, and around each power of two.
#[test]
fn every_sector_size() {
    let powers = (0..64).flat_map(|i| [(1usize << i) - 1, 1 << i, (1 << i) + 1]);
    for sector_size in (0..10_000).chain(powers).chain([usize::MAX]) {
        let [boot, update, swap] = [0, 2, 4].map(|i| sector_size.wrapping_mul(i));
        let geometry = Geometry { sector_size, sector_count: 1, boot, update, swap };
        let listed = SECTOR_SIZES.contains(&sector_size);
        assert_eq!(same_number(usize::MAX, &geometry), if listed { 0 } else { 1 }, "z {sector_size}");
    }
}

/// Every place of three areas in a small flash, by half sectors: each half belongs to one area at most.
#[test]
fn every_small_geometry() {
    let mut seen = Seen::default();
    let flash_len = 128 * 15 + 64;
    for i in 0..17 * 17 * 17 {
        let [boot, update, swap] = [i % 17, i / 17 % 17, i / 289];
        let mut owners = [0; 24];
        for (start, halves) in [(boot, 4), (update, 4), (swap, 2)] {
            owners[start..start + halves].iter_mut().for_each(|count| *count += 1);
        }
        let unaligned = [boot, update, swap].iter().any(|place| place % 2 == 1);
        let outside = owners[15..].iter().any(|&count| count > 0);
        let shared = owners.iter().any(|&count| count > 1);
        let number = if unaligned || outside { 3 } else { 4 * u32::from(shared) };
        let [boot, update, swap] = [boot, update, swap].map(|place| 128 * place);
        let geometry = Geometry { sector_size: 256, sector_count: 1, boot, update, swap };
        assert_eq!(same_number(flash_len, &geometry), number, "{geometry:?}");
        seen.add(number);
    }
    seen.each(20, &[0, 3, 4]);
}
