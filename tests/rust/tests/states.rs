//! The library's states of the slots, and its mid-swap, against the plain ones.
use frondicare_tests::answers::Answer;
use frondicare_tests::boards::{self, Board};
use frondicare_tests::decisions::Signed;
use frondicare_tests::flash::{Areas, Geometry, Slot};
use frondicare_tests::guarded::Guarded;
use frondicare_tests::random::Random;
use frondicare_tests::seen::Seen;
use frondicare_tests::states::{SlotState, NO_STATE};
use frondicare_tests::trailers::{all_new, all_updated, progress, sound_with, UPDATING};

const REFUSALS: [&str; 4] = ["REFUSE 1", "REFUSE 2", "REFUSE 3", "REFUSE 4"];

fn state_name(SlotState { number, state }: SlotState) -> String {
    match (number, state) {
        (0, NO_STATE) => "not sound".to_string(),
        (0, 0x00 | 0x10 | 0x30 | 0x70 | 0xff) => format!("{state:02X}"),
        (0, 0..=255) => "other".to_string(),
        (_, NO_STATE) => format!("REFUSE {number}"),
        _ => format!("REFUSE {number} with {state}"),
    }
}

/// Both slots of every board; in each slot each state, also those of the other one.
#[test]
fn slot_states() {
    let mut random = Random::new();
    let [mut boot, mut update]: [Seen<String>; 2] = Default::default();
    for _ in 0..40_000 {
        let Board { geometry, flash, .. } = boards::any(&mut random);
        let flash = Guarded::new(&flash, random.up_to(15));
        boot.add(state_name(flash.slot_state(&geometry, Slot::Boot)));
        update.add(state_name(flash.slot_state(&geometry, Slot::Update)));
    }
    let all = ["00", "10", "30", "70", "FF", "other", "not sound"].into_iter().chain(REFUSALS);
    let all = all.map(String::from).collect::<Vec<_>>();
    boot.each(100, &all);
    update.each(100, &all);
}

/// What speaks for mid-swap and against it.
fn shape(areas: &Areas, flash: &[u8]) -> &'static str {
    let staged = sound_with(areas, flash, Slot::Update, UPDATING);
    match (staged, all_new(areas, flash), all_updated(areas, flash), progress(areas, flash)) {
        (true, true, _, _) => "70, all F",
        (true, _, true, _) => "70, all 0",
        (true, _, _, Err(_)) => "70, ill-formed",
        (true, _, _, Ok(changes)) => ["70, some 0", "70, a 7", "70, a 3"][changes % 3],
        (false, true, _, _) => "not 70, all F",
        (false, ..) => "not 70, other flags",
    }
}

fn label(geometry: &Geometry, flash: &[u8], answer: bool) -> String {
    let shape = geometry.areas(flash.len()).map(|areas| shape(&areas, flash).to_string());
    format!("{}: {answer}", shape.unwrap_or_else(|number| format!("REFUSE {number}")))
}

/// In mid-swap the next step is one, whatever the checker says, or the refusal of ill-formed flags.
fn answers_in_mid_swap(flash: &Guarded, geometry: &Geometry) -> Answer {
    let answers = [(false, false), (false, true), (true, false), (true, true)]
        .map(|(boot, update)| flash.next_step(geometry, Signed { boot, update }));
    assert!(matches!(answers[0], Answer::Step(_) | Answer::Refused(20)), "{geometry:?}: {:?}", answers[0]);
    assert_eq!(answers, [answers[0]; 4], "{geometry:?}");
    answers[0]
}

#[test]
fn mid_swap() {
    let mut random = Random::new();
    let mut seen = Seen::default();
    for _ in 0..40_000 {
        let Board { geometry, flash, .. } = boards::any(&mut random);
        let flash = Guarded::new(&flash, random.up_to(15));
        let answer = flash.in_mid_swap(&geometry);
        seen.add(label(&geometry, flash.flash(), answer));
        if answer {
            answers_in_mid_swap(&flash, &geometry);
        }
    }
    let yes = ["70, ill-formed", "70, some 0", "70, a 7", "70, a 3"].map(|shape| format!("{shape}: true"));
    let no = ["70, all F", "70, all 0", "not 70, all F", "not 70, other flags"].into_iter().chain(REFUSALS);
    seen.each(100, &yes.into_iter().chain(no.map(|shape| format!("{shape}: false"))).collect::<Vec<_>>());
}
