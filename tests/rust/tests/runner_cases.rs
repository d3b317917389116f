//! The plain run against the cases that tests/vectors/runner.py made and answered, so that the two independent
//! implementations confirm each other. Nothing here calls the library.
use frondicare_tests::answers::answer_text;
use frondicare_tests::decisions::Signed;
use frondicare_tests::flash::Geometry;
use frondicare_tests::records::{same_lines, Input};
use frondicare_tests::runs::{self, Counts};
use frondicare_tests::{hex, sha256};

const INPUT: &[u8] = include_bytes!("../../../crates/runner_cases/stdin");
const OUTPUT: &str = include_str!("../../../crates/runner_cases/stdout");

/// Reads one record and gives the lines it should print. A record without a flash goes on with the one before.
fn answer(input: &mut Input, flash: &mut Vec<u8>) -> String {
    let name = input.name();
    let [sector_size, sector_count, boot, update, swap, answers] = [(); 6].map(|()| input.number(4) as usize);
    let geometry = Geometry { sector_size, sector_count, boot, update, swap };
    let signed = Signed { boot: answers & 1 != 0, update: answers & 2 != 0 };
    let [number, erases, copies, bytes, marks] = [(); 5].map(|()| input.number(4) as u32);
    let mut counts = Counts { erases, copies, bytes, marks };
    let flash_len = input.number(4) as usize;
    if flash_len > 0 {
        *flash = input.bytes(flash_len).to_vec();
    }
    let answer = answer_text(runs::run(flash, &geometry, signed, number, &mut counts));
    let Counts { erases, copies, bytes, marks } = counts;
    format!("{name}: {answer}\n{erases} {copies} {bytes} {marks} {}", hex(&sha256::digest(flash)))
}

#[test]
fn cases() {
    let mut flash = vec![];
    same_lines(INPUT, OUTPUT, |input| answer(input, &mut flash), 250);
}
