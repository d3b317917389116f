//! The plain flash against the cases that tests/vectors/flash.py made and answered, so that the two independent
//! implementations confirm each other. Nothing here calls the library.
use frondicare_tests::answers::step_text;
use frondicare_tests::flash::{self, Geometry, Slot, Step};
use frondicare_tests::records::{same_lines, text_or_refusal, Input};
use frondicare_tests::{hex, sha256, trailers};

const INPUT: &[u8] = include_bytes!("../../../crates/flash_cases/stdin");
const OUTPUT: &str = include_str!("../../../crates/flash_cases/stdout");

/// A record's numbers, and its flash.
struct Case {
    kind: u8,
    value: u8,
    geometry: Geometry,
    flash_len: usize,
    at: usize,
    to: usize,
    flash: Vec<u8>,
}

impl Case {
    fn slot(&self) -> Slot {
        [Slot::Boot, Slot::Update][self.kind as usize]
    }

    fn step(&self) -> Step {
        let Case { kind, value, at, to, .. } = *self;
        let steps = [Step::Erase { at }, Step::Copy { from: at, to }, Step::Byte { at, value }, Step::Mark { at }];
        steps[kind as usize]
    }
}

/// A flash of FF, with the patches that come next laid over it.
fn patched(input: &mut Input, flash_len: usize) -> Vec<u8> {
    let n = input.number(2) as usize;
    let mut patches = Input(input.bytes(n));
    let mut flash = vec![0xff; flash_len];
    while !patches.0.is_empty() {
        let (place, n) = (patches.number(2) as usize, patches.number(2) as usize);
        flash[place..place + n].copy_from_slice(patches.bytes(n));
    }
    flash
}

fn case(input: &mut Input, command: u8) -> Case {
    let (kind, value) = (input.number(1) as u8, u8::try_from(input.number(2)).unwrap());
    let [sector_size, sector_count, boot, update, swap, flash_len, at, to] = [(); 8].map(|()| input.number(8) as usize);
    let geometry = Geometry { sector_size, sector_count, boot, update, swap };
    // A geometry's check needs no flash, and may be about one that fits no machine.
    let flash = patched(input, if command == b'G' { 0 } else { flash_len });
    Case { kind, value, geometry, flash_len, at, to, flash }
}

fn finished_or(step: Option<Step>) -> String {
    step.map_or("FINISHED".to_string(), step_text)
}

fn applied(mut case: Case) -> String {
    let step = case.step();
    let number = flash::apply(&mut case.flash, &case.geometry, step).err().unwrap_or(0);
    format!("{number} {}", hex(&sha256::digest(&case.flash)))
}

/// Reads one record and gives the line it should print.
fn answer(input: &mut Input) -> String {
    let name = input.name();
    let command = input.number(1) as u8;
    let case = case(input, command);
    let (areas, flash) = (case.geometry.areas(case.flash_len), &case.flash);
    let text = match command {
        b'G' => text_or_refusal(areas, |_| "OK".to_string()),
        b'S' => applied(case),
        b'R' => text_or_refusal(areas, |areas| finished_or(trailers::renewal(&areas, flash, case.slot(), case.value))),
        b'P' => text_or_refusal(areas.and_then(|areas| trailers::progress(&areas, flash)), |n| n.to_string()),
        b'F' => text_or_refusal(areas, |areas| finished_or(trailers::flag_step(&areas, flash, case.at))),
        b'T' => {
            let sound = areas.is_ok_and(|areas| trailers::sound_with(&areas, flash, case.slot(), case.value));
            if sound { "YES" } else { "NO" }.to_string()
        }
        b'I' => {
            let image = areas.map_or(&flash[..0], |areas| trailers::image(&areas, flash, case.slot()));
            format!("{} {}", image.len(), hex(&sha256::digest(image)))
        }
        _ => panic!("command {command} of {name}"),
    };
    format!("{name}: {text}")
}

#[test]
fn cases() {
    same_lines(INPUT, OUTPUT, answer, 500);
}
