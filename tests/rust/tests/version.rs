//! The library's version of an image against the plain one, on random and damaged images.
use frondicare_tests::entries::Version;
use frondicare_tests::header::{self, SIZE};
use frondicare_tests::images;
use frondicare_tests::random::Random;
use frondicare_tests::seen::Seen;
use frondicare_tests::{frondicare, hex};

fn same_version(image: &[u8]) -> Version {
    let expected = match header::version(image) {
        Ok(version) => Version { number: 0, version },
        Err(number) => Version { number, version: 0 },
    };
    assert_eq!(frondicare::version_of(image), expected, "{}", hex(image));
    expected
}

/// Also of images whose digest differs.
#[test]
fn versions() {
    let mut random = Random::new();
    let mut seen = Seen::default();
    for _ in 0..30_000 {
        seen.add(same_version(&images::any(&mut random)).number);
    }
    seen.each(250, &[0, 10, 11, 12, 13, 14, 15, 16, 30]);
}

/// Every length of slice: 10, then 12 until the firmware is whole.
#[test]
fn every_length() {
    let mut random = Random::new();
    for _ in 0..50 {
        let image = images::written(&mut random);
        for n in 0..=image.len() {
            let number = same_version(&image[..n]).number;
            assert_eq!(number, frondicare::verify(&image[..n], true), "length {n}");
            assert_eq!(number == 10, n < SIZE, "length {n}");
        }
    }
}
