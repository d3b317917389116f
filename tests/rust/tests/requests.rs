//! The library's trigger and confirm against the plain ones, asked again and again with each step carried out.
use frondicare_tests::answers::{answer_kind, Answer};
use frondicare_tests::boards::{self, Board};
use frondicare_tests::flash::Geometry;
use frondicare_tests::guarded::Guarded;
use frondicare_tests::random::Random;
use frondicare_tests::seen::Seen;

/// Where the first answer is no refusal, at most so many steps are left, and then it is finished. The list has all
/// kinds of first answers.
fn until_finished(request: fn(&Guarded, &Geometry) -> Answer, most: usize, list: &str) {
    let mut random = Random::new();
    let mut seen = Seen::default();
    for _ in 0..60_000 {
        let Board { geometry, flash, .. } = boards::any(&mut random);
        let mut flash = Guarded::new(&flash, random.up_to(15));
        let mut answer = request(&flash, &geometry);
        seen.add(answer_kind(answer));
        for _ in 0..most {
            let Some(step) = answer.step() else { break };
            assert_eq!(flash.apply(&geometry, step), 0, "{geometry:?}, {step:?}");
            answer = request(&flash, &geometry);
            assert!(matches!(answer, Answer::Step(_) | Answer::Finished), "{geometry:?}, {answer:?} after {step:?}");
        }
        assert_eq!(answer.step(), None, "{geometry:?}: more than {most} steps");
    }
    seen.each(300, &list.split(", ").map(String::from).collect::<Vec<_>>());
}

#[test]
fn triggers() {
    let list = "E, B, M, FINISHED, REFUSE 1, REFUSE 2, REFUSE 3, REFUSE 4, REFUSE 21, REFUSE 22";
    until_finished(Guarded::trigger, 3, list);
}

#[test]
fn confirms() {
    let list = "B, FINISHED, REFUSE 1, REFUSE 2, REFUSE 3, REFUSE 4, REFUSE 22, REFUSE 23";
    until_finished(Guarded::confirm, 1, list);
}
