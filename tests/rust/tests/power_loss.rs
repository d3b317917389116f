//! Demand 3 of document 01: an update and the return after it, each cut any number of times. Each power-up is a run by
//! the library that does what the plain one does, and boots; the images change places and come back, byte for byte; the
//! steps begun are at most 9n + 4 and two for each cut; and nothing outside the areas changes.
use frondicare_tests::answers::Answer;
use frondicare_tests::decisions::Signed;
use frondicare_tests::flash::Geometry;
use frondicare_tests::guarded::Guarded;
use frondicare_tests::histories::{each_cut, history, images, Cut, Fall, History};
use frondicare_tests::layouts::{self, SECTOR_SIZES};
use frondicare_tests::power_ups::Checker;
use frondicare_tests::random::Random;
use frondicare_tests::runs::{self, Counts, MOST_STEPS};
use frondicare_tests::seen::Seen;
use frondicare_tests::staged::{self, Staged};
use frondicare_tests::totals::Totals;

/// Histories with many cuts; HISTORIES=.. for more.
const MANY: usize = 10_000;
const MOST_CUTS: usize = 12;
const BOTH: Signed = Signed { boot: true, update: true };

type Make = fn(&mut Random, (usize, usize)) -> Staged;

/// The bound of an update or a return without cuts.
fn most_steps(geometry: &Geometry) -> usize {
    9 * geometry.sector_count + 4
}

/// What an update leaves that is not cut.
fn updated(board: &Staged) -> Vec<u8> {
    let mut flash = board.flash.clone();
    let answer = runs::run(&mut flash, &board.geometry, BOTH, MOST_STEPS, &mut Counts::default());
    assert_eq!(answer, Answer::Boot(0));
    flash
}

/// Every cut that may fall in a list from this flash on, of what it leaves a choice; the last, after the last step.
fn every_cut(board: &Staged, flash: &[u8]) -> Vec<Cut> {
    let mut cuts = vec![];
    for number in 0.. {
        let (here, due) = each_cut(board, flash, number);
        cuts.extend(here);
        if !due {
            break;
        }
    }
    cuts
}

/// One cut at every step of the update, and one at every step of the return. No firmware fits one sector of 256 bytes.
#[test]
fn one_cut() {
    let (mut random, mut totals) = (Random::new(), Totals::default());
    let sizes = SECTOR_SIZES.into_iter().flat_map(|z| (1..=3).map(move |n| (z, n)));
    for sizes in sizes.chain((4..=8).map(|n| (256, n))).filter(|&sizes| sizes != (256, 1)) {
        for board in [staged::full(&mut random, sizes), staged::any(&mut random, sizes)] {
            for cut in every_cut(&board, &board.flash) {
                history(&mut random, &board, [&[cut], &[]], &mut totals);
            }
            for cut in every_cut(&board, &updated(&board)) {
                history(&mut random, &board, [&[], &[cut]], &mut totals);
            }
        }
    }
    totals.report(10);
}

/// Two cuts at every two steps, of one list or of both.
#[test]
fn two_cuts() {
    let (mut random, mut totals) = (Random::new(), Totals::default());
    for (make, sizes) in [(staged::full as Make, (512, 1)), (staged::any, (1024, 1)), (staged::full, (256, 2))] {
        let board = make(&mut random, sizes);
        let numbers = 0..=most_steps(&board.geometry) as u32 + 2;
        let (first, second) = (every_cut(&board, &board.flash), every_cut(&board, &updated(&board)));
        for other in numbers.map(|number| Cut { number, fall: Fall::Any }) {
            for &cut in &first {
                history(&mut random, &board, [&[cut, other], &[]], &mut totals);
                history(&mut random, &board, [&[cut], &[other]], &mut totals);
            }
            for &cut in &second {
                history(&mut random, &board, [&[], &[cut, other]], &mut totals);
            }
        }
    }
    totals.report(10);
}

/// Mostly few sectors, so that there can be many histories.
fn sizes(random: &mut Random) -> (usize, usize) {
    match random.up_to(99) {
        0 => (256, 64),
        1..=15 => layouts::sizes(random, 8),
        16..=30 => (512, 1 + random.up_to(2)),
        _ => (256, 2 + random.up_to(6)),
    }
}

/// Up to so many cuts, many of them right after a power-up or soon.
fn some_cuts(random: &mut Random, geometry: &Geometry, most: usize) -> Vec<Cut> {
    let count = random.up_to(most);
    let cut = |_| {
        let [soon, later, last] = [4, most_steps(geometry) / 3, most_steps(geometry)].map(|n| random.up_to(n) as u32);
        Cut { number: random.one_of(&[0, 0, soon, soon, soon, later, later, last]), fall: Fall::Any }
    };
    (0..count).map(cut).collect()
}

#[test]
fn many_cuts() {
    let (mut random, mut totals) = (Random::new(), Totals::default());
    let [mut of_size, mut of_count]: [Seen<usize>; 2] = Default::default();
    let count = std::env::var("HISTORIES").map_or(MANY, |text| text.parse().expect("HISTORIES is a number"));
    for _ in 0..count {
        let (z, n) = Some(sizes(&mut random)).filter(|&sizes| sizes != (256, 1)).unwrap_or((256, 2));
        let board = staged::any(&mut random, (z, n));
        let [first, second] = [(); 2].map(|()| some_cuts(&mut random, &board.geometry, MOST_CUTS));
        history(&mut random, &board, [&first, &second], &mut totals);
        of_size.add(z);
        of_count.add(n);
    }
    totals.report(20);
    of_size.each(100, &SECTOR_SIZES);
    of_count.each(20, &[1, 2, 3, 4, 5, 6, 7, 8, 64]);
}

/// The checker says no to the old image, so its answers differ, and change places within a power-up or between two. The
/// update ends as any other; there is no return, and the reason is given.
#[test]
fn old_image_unsigned() {
    let (mut random, mut totals) = (Random::new(), Totals::default());
    for _ in 0..1000 {
        let n = 2 + random.up_to(3);
        let board = staged::any(&mut random, (256, n));
        let areas = board.geometry.areas(board.flash.len()).expect("the geometry fits");
        let [old, new] = images(&areas, &board.flash);
        let checker = Checker { signed: vec![new.clone()] };
        let cuts = some_cuts(&mut random, &board.geometry, MOST_CUTS);
        let mut history = History { board: &board, checker: &checker, totals: &mut totals };
        let flash = history.list(&mut random, 0, &board.flash, &cuts);
        assert!(images(&areas, &flash) == [new, old]);
        let (mut flash, mut counts) = (Guarded::new(&flash, 0), Counts::default());
        let signed = Signed { boot: true, update: false };
        assert_eq!(flash.run(&board.geometry, signed, MOST_STEPS, &mut counts), Answer::Boot(18));
        assert_eq!(counts, Counts::default());
    }
}
