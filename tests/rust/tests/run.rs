//! The library's run and its record of finished steps against the plain ones.
use frondicare_tests::answers::answer_kind;
use frondicare_tests::boards::{self, Board};
use frondicare_tests::guarded::Guarded;
use frondicare_tests::random::Random;
use frondicare_tests::runner;
use frondicare_tests::runs::{self, Counts, MOST_COUNT, MOST_STEPS};
use frondicare_tests::seen::Seen;

/// Mostly enough for a run to its end, or few; at times too large by one, by a bit, or by far.
fn any_number(random: &mut Random) -> u32 {
    let (few, some, any) = (random.up_to(40) as u32, random.up_to(4096) as u32, random.number() as u32);
    match random.up_to(19) {
        0..=6 => MOST_STEPS,
        7..=14 => random.one_of(&[0, 1, few, few]),
        15 | 16 => random.one_of(&[some, MOST_STEPS - 1]),
        17 => MOST_STEPS + 1,
        _ => random.one_of(&[any, few | 1 << 16, MOST_STEPS | 1 << 31, u32::MAX]),
    }
}

/// Counters around the limit, from 0 on, or any; at times one has no room.
fn any_counts(random: &mut Random) -> Counts {
    if random.percent(50) {
        return Counts::default();
    }
    let mut count = || {
        let (some, any) = (random.up_to(MOST_COUNT as usize) as u32, random.number() as u32);
        let over = random.one_of(&[MOST_COUNT + 1, any, u32::MAX]);
        random.one_of(&[0, 0, 0, 1, some, some, some, some, some, MOST_COUNT - 1, MOST_COUNT, MOST_COUNT, over])
    };
    Counts { erases: count(), copies: count(), bytes: count(), marks: count() }
}

/// What speaks against a run before its first step.
fn against(board: &Board, number: u32, counts: &Counts) -> String {
    let geometry = board.geometry.areas(board.flash.len()).err().map(|_| "geometry");
    let large = Some("29").filter(|_| number > MOST_STEPS);
    let no_room = Some("28").filter(|_| !counts.has_room());
    [geometry, large, no_room].into_iter().flatten().collect::<Vec<_>>().join(", ")
}

const AT_ONCE: &str =
    "REFUSE 11, REFUSE 12, REFUSE 13, REFUSE 14, REFUSE 15, REFUSE 16, REFUSE 17, REFUSE 18, REFUSE 20, REFUSE 30, \
    BOOT 0, BOOT 11, BOOT 12, BOOT 13, BOOT 14, BOOT 15, BOOT 16, BOOT 17, BOOT 18, BOOT 19, BOOT 30, \
    E, C, B, M, LAST B";
const LATER: &str = "REFUSE 11, REFUSE 12, REFUSE 13, REFUSE 14, REFUSE 15, REFUSE 16, REFUSE 17, REFUSE 18, \
    REFUSE 30, BOOT 0, E, C, B, M, LAST B";
const REFUSED: &str = "geometry; 29; 28; geometry, 29; geometry, 28; 29, 28; geometry, 29, 28";

/// Any board, and what a second run makes of it. A refusal before the first step changes nothing.
#[test]
fn any_run() {
    let mut random = Random::new();
    let [mut at_once, mut later, mut refused]: [Seen<String>; 3] = Default::default();
    for _ in 0..60_000 {
        let board = boards::for_a_run(&mut random);
        let mut flash = Guarded::new(&board.flash, random.up_to(15));
        for _ in 0..2 {
            let (number, before) = (any_number(&mut random), any_counts(&mut random));
            let (old, mut counts) = (flash.flash().to_vec(), before);
            let answer = flash.run(&board.geometry, board.signed, number, &mut counts);
            let against = against(&board, number, &before);
            if !against.is_empty() {
                assert!(flash.flash() == old && counts == before, "{answer:?}: refused, and written");
                refused.add(against);
            } else if counts == before {
                at_once.add(answer_kind(answer));
            } else {
                later.add(answer_kind(answer));
            }
        }
    }
    for (seen, list, mark) in [(at_once, AT_ONCE, ", "), (later, LATER, ", "), (refused, REFUSED, "; ")] {
        seen.each(20, &list.split(mark).map(String::from).collect::<Vec<_>>());
    }
}

/// For every n, also where it is none. With that number no run is left with a step due, and many need more than one
/// swap, 9n + 4 steps.
#[test]
fn most_steps() {
    let powers = (0..64).flat_map(|i| [(1usize << i) - 1, 1 << i, (1 << i) + 1]);
    for n in (0..1000).chain(powers).chain([usize::MAX]) {
        assert_eq!(runner::most_steps(n), runs::most_steps(n), "n {n}");
    }
    assert_eq!([0, 1, 2, 64, 65].map(runner::most_steps), [0, 26, 44, 1160, 0]);
    let (mut random, mut of_two_swaps) = (Random::new(), 0);
    for _ in 0..10_000 {
        let Board { geometry, flash, signed } = boards::for_a_run(&mut random);
        let (number, mut counts) = (runner::most_steps(geometry.sector_count), Counts::default());
        let answer = Guarded::new(&flash, 0).run(&geometry, signed, number, &mut counts);
        assert_eq!(answer.step(), None, "{geometry:?}, {signed:?}: {number} steps are not enough");
        of_two_swaps += usize::from(2 * counts.since(&Counts::default()) > number as usize);
    }
    assert!(of_two_swaps > 100, "only {of_two_swaps} runs of more than one swap");
}

/// Every kind of step, and numbers that are none, with every counter below, at and above the limit.
#[test]
fn add_step() {
    let mut seen = Seen::default();
    let edges = [0, 1, MOST_COUNT - 1, MOST_COUNT, MOST_COUNT + 1, u32::MAX];
    let each = || edges.into_iter();
    for (erases, copies) in each().flat_map(|one| each().map(move |other| (one, other))) {
        for (bytes, marks) in each().flat_map(|one| each().map(move |other| (one, other))) {
            for op in [0, 1, 2, 3, 4, 5, 7, 256, 1 << 16, 1 << 31, u32::MAX] {
                let before = Counts { erases, copies, bytes, marks };
                let (mut counts, mut plain) = (before, before);
                let number = runner::add_step(&mut counts, op);
                assert_eq!((number, counts), (runs::add_step(&mut plain, op), plain), "{before:?}, op {op}");
                assert!(number == 0 || counts == before, "{before:?}, op {op}: refused, and written");
                seen.add(number);
            }
        }
    }
    seen.each(500, &[0, 24, 28]);
}
