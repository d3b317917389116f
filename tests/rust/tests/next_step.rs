//! The library's next step against the plain one.
use frondicare_tests::answers::{answer_kind, Answer};
use frondicare_tests::boards::{self, Board};
use frondicare_tests::decisions::{Signed, Situation, Slots, VersionRule};
use frondicare_tests::flash::Geometry;
use frondicare_tests::guarded::Guarded;
use frondicare_tests::random::Random;
use frondicare_tests::seen::Seen;

const REFUSALS: &str =
    "REFUSE 11, REFUSE 12, REFUSE 13, REFUSE 14, REFUSE 15, REFUSE 16, REFUSE 17, REFUSE 18, REFUSE 30";
const REASONS: &str = "BOOT 11, BOOT 12, BOOT 13, BOOT 14, BOOT 15, BOOT 16, BOOT 17, BOOT 18, BOOT 30";

/// Each situation by its decision, and all that it is answered with.
const ANSWERS: [(&str, &str); 18] = [
    ("geometry", "REFUSE 1, REFUSE 2, REFUSE 3, REFUSE 4"),
    ("1 ill-formed", "REFUSE 20"),
    ("2 exchanged", "E, B, M"),
    ("2 renewed", "LAST B, B"),
    ("3 UPDATE fails", REASONS),
    ("3 UPDATE fails", REFUSALS),
    ("3 version not greater", "BOOT 19, REFUSE 17, REFUSE 18"),
    ("3 version greater", "B, C, E"),
    ("3 BOOT on trial", "B, C, E"),
    ("3 BOOT has no version", "B, C, E"),
    ("4 new", "B, C, E"),
    ("4 swapping", "B, C, E"),
    ("4 backup", "B, C, E"),
    ("5 UPDATE passes", "E, B, M"),
    ("5 UPDATE fails", REASONS),
    ("5 UPDATE fails", REFUSALS),
    ("6 nothing staged", "BOOT 0"),
    ("6 nothing staged", REFUSALS),
];

fn name(situation: Situation) -> &'static str {
    match situation {
        Situation::IllFormed(_) => "1 ill-formed",
        Situation::Exchanged(_) => "2 exchanged",
        Situation::Renewed => "2 renewed",
        Situation::NoUpdate(19) => "3 version not greater",
        Situation::NoUpdate(_) => "3 UPDATE fails",
        Situation::Update(VersionRule::Greater) => "3 version greater",
        Situation::Update(VersionRule::BootOnTrial) => "3 BOOT on trial",
        Situation::Update(VersionRule::BootHasNone) => "3 BOOT has no version",
        Situation::Exchanging(changes) => ["4 new", "4 swapping", "4 backup"][changes % 3],
        Situation::Return(_) => "5 UPDATE passes",
        Situation::NoReturn(_) => "5 UPDATE fails",
        Situation::NothingStaged => "6 nothing staged",
    }
}

fn label(flash: &[u8], geometry: &Geometry, signed: Signed, answer: Answer) -> String {
    let name = geometry.areas(flash.len()).map_or("geometry", |areas| name(Slots { areas, flash, signed }.situation()));
    format!("{name}: {}", answer_kind(answer))
}

/// Each board, and what its step leaves.
#[test]
fn any_board() {
    let mut random = Random::new();
    let mut seen = Seen::default();
    for _ in 0..100_000 {
        let Board { geometry, flash, signed } = boards::any(&mut random);
        let mut flash = Guarded::new(&flash, random.up_to(15));
        let answer = flash.next_step(&geometry, signed);
        seen.add(label(flash.flash(), &geometry, signed, answer));
        if let Some(step) = answer.step() {
            assert_eq!(flash.apply(&geometry, step), 0, "{geometry:?}, {step:?}");
            flash.next_step(&geometry, signed);
        }
    }
    let all = ANSWERS.iter().flat_map(|(name, kinds)| kinds.split(", ").map(move |kind| format!("{name}: {kind}")));
    seen.each(40, &all.collect::<Vec<_>>());
}
