//! Whole updates and returns, decided by the library and the plain loader and carried out step by step.
use frondicare_tests::answers::{step_text, Answer};
use frondicare_tests::decisions::{self, Signed};
use frondicare_tests::flash::Geometry;
use frondicare_tests::guarded::Guarded;
use frondicare_tests::layouts::{self, SECTOR_SIZES};
use frondicare_tests::paper::{example, EXCHANGE, G, G_LEN};
use frondicare_tests::powered::{two_slots, Powered};
use frondicare_tests::random::Random;
use frondicare_tests::trailers::{SPENT, SUCCESS, TESTING};
use frondicare_tests::writer::Fields;
use frondicare_tests::{frondicare, header, images, loader, requests};

const BOTH: Signed = Signed { boot: true, update: true };

#[test]
fn paper_example() {
    let mut board = Powered::new(G, &example(), BOTH);
    board.request(Guarded::trigger, 2);
    let (steps, end) = board.power_up(22);
    assert_eq!(steps.into_iter().map(step_text).collect::<Vec<_>>().join("; "), EXCHANGE);
    assert_eq!((end, header::version(board.images()[0])), (Answer::Boot(0), Ok(2)));
}

/// The same where an offset takes more than 32 bits, on a flash that is too large to be copied.
#[test]
fn far_areas() {
    const FAR: usize = 1 << 32;
    let geometry = Geometry { boot: FAR, update: FAR + G.update, swap: FAR + G.swap, ..G };
    let mut flash = vec![0; FAR + G_LEN];
    flash[FAR..].copy_from_slice(&example());
    for i in 0..23 {
        let (plain, proved) = match i {
            0..=1 => (requests::trigger(&flash, &geometry), loader::trigger(&flash, &geometry)),
            2..=21 => (decisions::next_step(&flash, &geometry, BOTH), loader::next_step(&flash, &geometry, BOTH)),
            _ => (requests::confirm(&flash, &geometry), loader::confirm(&flash, &geometry)),
        };
        assert_eq!(proved, plain.into(), "step {i}");
        assert_eq!(frondicare::apply_step(&mut flash, &geometry, plain.step().expect("a step is left")), 0);
    }
    assert!(flash[FAR + header::SIZE..][..256] == [0x22; 256] && flash[FAR + 763..][..5] == *b"\x00BOOT");
}

/// A board with two images that fill their slots, the new one with the greater version; all else FF, or noise.
fn staged(random: &mut Random, sizes: (usize, usize), noise: bool, signed: Signed) -> (Powered, Vec<u8>, Vec<u8>) {
    let (geometry, len) = layouts::placed(random, sizes, 0);
    let [old, new] = [1, 2].map(|version| {
        let fields = Fields { version, ..images::fields(random) };
        images::with(random, fields, sizes.0 * sizes.1 - header::SIZE)
    });
    let flash = if noise { random.bytes(len) } else { vec![0xff; len] };
    let mut board = Powered::new(geometry, &two_slots(flash, &geometry, &old, &new), signed);
    board.request(Guarded::trigger, if noise { 3 } else { 2 });
    (board, old, new)
}

/// An update, and the return where it is not confirmed: the images change places twice, each time in 9n + 4 steps
/// where no sector is blank. A return ends on trial too, and confirmed it stays.
fn update_and_return(random: &mut Random, sizes: (usize, usize), noise: bool) {
    let (mut board, old, new) = staged(random, sizes, noise, BOTH);
    let most = 9 * sizes.1 + 4;
    // SWAP and BOOT's trailer need not be erased where they are blank.
    let first = if noise { most } else { most - 2 };
    for (images, count) in [([&new, &old], first), ([&old, &new], most)] {
        let (steps, end) = board.power_up(most);
        assert_eq!((steps.len(), end), (count, Answer::Boot(0)), "{:?}", board.geometry);
        assert!(board.images() == images, "{:?}: the images are not exchanged", board.geometry);
        assert!(board.has_states(TESTING, SPENT), "{:?}", board.geometry);
    }
    board.request(Guarded::confirm, 1);
    assert!(board.has_states(SUCCESS, SPENT), "{:?}", board.geometry);
    assert_eq!(board.power_up(1), (vec![], Answer::Boot(0)));
}

#[test]
fn every_sector_count() {
    let mut random = Random::new();
    for n in 1..=64 {
        update_and_return(&mut random, (if n == 1 { 512 } else { 256 }, n), true);
    }
}

#[test]
fn every_sector_size() {
    let mut random = Random::new();
    for z in SECTOR_SIZES {
        for n in [2, 3, 5, 64] {
            update_and_return(&mut random, (z, n), false);
        }
    }
}

/// The checker says no to the old image: the update goes on, as only the new one has to pass. Not confirmed, the new
/// one stays all the same, with the reason why.
#[test]
fn old_image_unsigned() {
    let mut random = Random::new();
    for n in 2..=8 {
        let (mut board, old, new) = staged(&mut random, (256, n), false, Signed { boot: false, update: true });
        assert_eq!(board.power_up(9 * n + 4).1, Answer::Boot(0));
        assert_eq!(board.power_up(1), (vec![], Answer::Boot(18)));
        assert!(board.images() == [&new, &old]);
    }
}

/// A bit of the new image changes in mid-swap: the update ends with an ordinary step, and the return follows at once.
#[test]
fn new_image_damaged() {
    let mut random = Random::new();
    for n in 2..=8 {
        let (mut board, old, _) = staged(&mut random, (256, n), false, BOTH);
        // The first sector's flag is written by the second step, and the last sector is still as it was.
        board.power_up(2 + random.up_to(6));
        let mut flash = board.flash.flash().to_vec();
        flash[board.geometry.update + 256 * n - 1] ^= 1;
        let mut board = Powered::new(board.geometry, &flash, board.signed);
        assert_eq!(board.power_up(2 * (9 * n + 4)).1, Answer::Boot(0));
        assert!(board.images()[0] == old);
    }
}
