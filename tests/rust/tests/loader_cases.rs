//! The plain loader against the cases that tests/vectors/loader.py made and answered, so that the two independent
//! implementations confirm each other. Nothing here calls the library.
use frondicare_tests::answers::{answer_text, Answer};
use frondicare_tests::decisions::{self, Signed};
use frondicare_tests::flash::{self, Geometry};
use frondicare_tests::records::{same_lines, Input};
use frondicare_tests::requests;

const INPUT: &[u8] = include_bytes!("../../../crates/loader_cases/stdin");
const OUTPUT: &str = include_str!("../../../crates/loader_cases/stdout");

fn asked(command: u8, flash: &[u8], geometry: &Geometry, signed: Signed) -> Answer {
    match command {
        b'N' => decisions::next_step(flash, geometry, signed),
        b'T' => requests::trigger(flash, geometry),
        b'C' => requests::confirm(flash, geometry),
        _ => panic!("command {command}"),
    }
}

/// Reads one record and gives the line it should print. With a capital letter the step is also carried out. A record
/// without a flash goes on with the one before.
fn answer(input: &mut Input, flash: &mut Vec<u8>) -> String {
    let (name, command) = (input.name(), input.number(1) as u8);
    let [sector_size, sector_count, boot, update, swap, answers] = [(); 6].map(|()| input.number(4) as usize);
    let geometry = Geometry { sector_size, sector_count, boot, update, swap };
    let signed = Signed { boot: answers & 1 != 0, update: answers & 2 != 0 };
    let flash_len = input.number(4) as usize;
    if flash_len > 0 {
        *flash = input.bytes(flash_len).to_vec();
    }
    let answer = asked(command.to_ascii_uppercase(), flash, &geometry, signed);
    if let Some(step) = answer.step().filter(|_| command.is_ascii_uppercase()) {
        flash::apply(flash, &geometry, step).expect("a step that was answered is accepted");
    }
    format!("{name}: {}", answer_text(answer))
}

#[test]
fn cases() {
    let mut flash = vec![];
    same_lines(INPUT, OUTPUT, |input| answer(input, &mut flash), 500);
}
