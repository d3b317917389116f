//! The library's run on document 01's example, and the return after it.
use frondicare_tests::answers::{answer_text, Answer, RawAnswer};
use frondicare_tests::decisions::Signed;
use frondicare_tests::flash::Geometry;
use frondicare_tests::guarded::Guarded;
use frondicare_tests::paper::{example, EXCHANGE, G, G_LEN};
use frondicare_tests::runs::{Counts, MOST_STEPS};
use frondicare_tests::{header, runner};

const BOTH: Signed = Signed { boot: true, update: true };

fn triggered() -> Vec<u8> {
    let mut flash = example();
    flash[1531..1536].copy_from_slice(b"\x70BOOT");
    flash
}

/// With each number the steps that the paper prints, and the step due.
#[test]
fn each_number() {
    let steps: Vec<&str> = EXCHANGE.split("; ").collect();
    for number in (0..=22).chain([4095, 4096]) {
        let (mut flash, mut counts) = (Guarded::new(&triggered(), 0), Counts::default());
        let answer = flash.run(&G, BOTH, number, &mut counts);
        let expected = match steps.get(number as usize) {
            Some(step) if number == 19 => format!("LAST {step}"),
            Some(step) => step.to_string(),
            None => "BOOT 0".to_string(),
        };
        let done = &steps[..steps.len().min(number as usize)];
        let [erases, copies, bytes, marks] =
            ["E", "C", "B", "M"].map(|letter| done.iter().filter(|step| step.starts_with(letter)).count() as u32);
        assert_eq!((answer_text(answer), counts), (expected, Counts { erases, copies, bytes, marks }), "{number}");
    }
}

/// The example and the return after it: 20 steps and 22, which is 9n + 4.
#[test]
fn update_and_return() {
    let (mut flash, mut counts) = (Guarded::new(&triggered(), 0), Counts::default());
    assert_eq!(flash.run(&G, BOTH, MOST_STEPS, &mut counts), Answer::Boot(0));
    assert_eq!(counts, Counts { erases: 5, copies: 6, bytes: 8, marks: 1 });
    assert_eq!(header::version(&flash.flash()[..512]), Ok(2));
    assert_eq!(flash.run(&G, BOTH, MOST_STEPS, &mut counts), Answer::Boot(0));
    assert_eq!(counts, Counts { erases: 5 + 7, copies: 6 + 6, bytes: 8 + 8, marks: 1 + 1 });
    assert_eq!(header::version(&flash.flash()[..512]), Ok(1));
}

/// The same in pieces where an offset takes more than 32 bits, on a flash that is too large to be copied.
#[test]
fn far_areas() {
    const FAR: usize = 1 << 32;
    let geometry = Geometry { boot: FAR, update: FAR + G.update, swap: FAR + G.swap, ..G };
    let (mut near, mut counts) = (Guarded::new(&triggered(), 0), [Counts::default(); 2]);
    let mut flash = vec![0; FAR + G_LEN];
    flash[FAR..].copy_from_slice(near.flash());
    for number in [1, 7, 11, 4096] {
        let mut expected = RawAnswer::from(near.run(&G, BOTH, number, &mut counts[0]));
        if expected.kind == 0 || expected.kind == 1 {
            expected.at += FAR;
            expected.to += if expected.op == 1 { FAR } else { 0 };
        }
        assert_eq!(runner::run(&mut flash, &geometry, BOTH, number, &mut counts[1]), expected, "number {number}");
        assert_eq!(counts[0], counts[1], "number {number}");
        assert!(flash[FAR..] == *near.flash() && flash[FAR - 512..FAR] == [0; 512], "number {number}");
    }
}
