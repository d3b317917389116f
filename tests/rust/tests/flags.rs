//! The library's next step and mid-swap against the plain ones, for every flag that a sector can have.
use frondicare_tests::answers::Answer;
use frondicare_tests::decisions::Signed;
use frondicare_tests::flash::{Geometry, Step};
use frondicare_tests::guarded::Guarded;
use frondicare_tests::paper::{G, G_LEN};
use frondicare_tests::random::Random;

const SIGNED: Signed = Signed { boot: true, update: true };

/// Random bytes, but UPDATE is sound with 70.
fn updating(random: &mut Random, geometry: &Geometry, len: usize) -> Vec<u8> {
    let mut flash = random.bytes(len);
    let end = geometry.update + (geometry.sector_count + 1) * geometry.sector_size;
    flash[end - 5..end].copy_from_slice(b"\x70BOOT");
    flash
}

/// G's flag byte at 1530 with each value: source and target in mid-swap as the list has them. With all F neither image
/// passes, with all 0 BOOT's trailer has to be renewed, and all other values are ill-formed.
#[test]
fn every_flag_byte() {
    let mid_swap = [(0xf7, 0, 768), (0xf3, 1536, 0), (0xf0, 1024, 1536), (0x70, 256, 1024), (0x30, 1536, 256)];
    let mut random = Random::new();
    for value in 0..=255 {
        let mut flash = updating(&mut random, &G, G_LEN);
        flash[1530] = value;
        let current = mid_swap.into_iter().find(|case| case.0 == value);
        if let Some((_, _, to)) = current {
            flash[to..to + 256].fill(0xff);
        }
        let expected = match (current, value) {
            (Some((_, from, to)), _) => Answer::Step(Step::Copy { from, to }),
            (None, 0xff) => Answer::Refused(11),
            (None, 0x00) => Answer::Step(Step::Erase { at: 512 }),
            _ => Answer::Refused(20),
        };
        let flash = Guarded::new(&flash, 0);
        assert_eq!(flash.next_step(&G, SIGNED), expected, "flag byte {value:02x}");
        assert_eq!(flash.in_mid_swap(&G), value != 0xff && value != 0x00, "flag byte {value:02x}");
    }
}

/// Three sectors and the spare half: every two bytes. Ten values of the progress are well formed, with sixteen spare
/// halves each; of these all F and all 0 are not mid-swap.
#[test]
fn every_three_flags() {
    let geometry = Geometry { sector_size: 256, sector_count: 3, boot: 0, update: 1024, swap: 2048 };
    let mut random = Random::new();
    let mut flash = updating(&mut random, &geometry, 2304);
    let (mut well_formed, mut at_rest) = (0, 0);
    for flags in 0..=0xffffu16 {
        flash[2041..2043].copy_from_slice(&flags.to_be_bytes());
        let flash = Guarded::new(&flash, 0);
        well_formed += usize::from(flash.next_step(&geometry, SIGNED) != Answer::Refused(20));
        at_rest += usize::from(!flash.in_mid_swap(&geometry));
    }
    assert_eq!((well_formed, at_rest), (160, 32));
}
