//! The plain header against the cases that tests/vectors/header.py made and answered, so that the two independent
//! implementations confirm each other. Nothing here calls the library.
use frondicare_tests::frondicare::PAINT;
use frondicare_tests::records::{same_lines, text_or_refusal, Input};
use frondicare_tests::writer::{self, Fields, Parts};
use frondicare_tests::{header, hex};

const INPUT: &[u8] = include_bytes!("../../../crates/header_cases/stdin");
const OUTPUT: &str = include_str!("../../../crates/header_cases/stdout");

fn written(buffer_len: usize, parts: &Parts, signature: &[u8; 64]) -> String {
    let mut buffer = vec![PAINT; buffer_len];
    let number = writer::write_header(&mut buffer, parts, signature).err().unwrap_or(0);
    format!("{number} {}", hex(&buffer))
}

/// The writer's commands, D and H.
fn write(input: &mut Input, command: u8, fields: Fields, sizes: [usize; 3]) -> String {
    let [a, b, buffer_len] = sizes;
    let (firmware, custom) = (input.bytes(a), input.bytes(b));
    let hint = input.bytes(32).try_into().unwrap();
    let signature = input.bytes(64).try_into().unwrap();
    let parts = Parts { fields, firmware, custom, hint };
    match command {
        b'D' => text_or_refusal(writer::digest_to_sign(&parts), |digest| hex(&digest)),
        _ => written(buffer_len, &parts, signature),
    }
}

/// Reads one record and gives the line it should print.
fn answer(input: &mut Input) -> String {
    let name = input.name();
    let (command, signature_ok, kind) = (input.number(1) as u8, input.number(1) == 1, input.number(2) as u16);
    let (a, b) = (input.number(4) as usize, input.number(4) as usize);
    let version = input.number(4) as u32;
    let fields = Fields { version, timestamp: input.number(8), firmware_type: input.number(2) as u16 };
    let buffer_len = input.number(2) as usize;
    let text = match command {
        b'F' => text_or_refusal(header::find_tag(input.bytes(a), kind), |tag| format!("{} {}", tag.at, tag.len)),
        b'L' => {
            let wanted = (!signature_ok).then_some(kind);
            text_or_refusal(header::next_tag(input.bytes(a), buffer_len, wanted), |tag| {
                format!("{} {} {} {}", tag.kind, tag.at, tag.len, tag.next)
            })
        }
        b'W' => hex(header::view(input.bytes(a), kind)),
        b'V' => text_or_refusal(header::verify(input.bytes(a), signature_ok), |()| "PASS".to_string()),
        b'N' => text_or_refusal(header::version(input.bytes(a)), |version| version.to_string()),
        b'D' | b'H' => write(input, command, fields, [a, b, buffer_len]),
        _ => panic!("command {command} of {name}"),
    };
    format!("{name}: {text}")
}

#[test]
fn cases() {
    same_lines(INPUT, OUTPUT, answer, 100);
}
