//! The library's writer against the plain one, and what it wrote against verdict and lookup.
use frondicare_tests::entries::Tag;
use frondicare_tests::frondicare::{self, PAINT, UNTOUCHED};
use frondicare_tests::header::{DIGEST, FIRMWARE_TYPE, HINT, SIGNATURE, SIZE, TIMESTAMP, VERSION};
use frondicare_tests::random::Random;
use frondicare_tests::seen::Seen;
use frondicare_tests::writer::{self, Fields, Parts, MOST_CUSTOM, MOST_FIRMWARE};
use frondicare_tests::{custom_runs, hex, images};

struct Case {
    buffer_len: usize,
    fields: Fields,
    firmware: Vec<u8>,
    custom: Vec<u8>,
    hint: [u8; 32],
    signature: [u8; 64],
}

impl Case {
    fn parts(&self) -> Parts<'_> {
        Parts { fields: self.fields, firmware: &self.firmware, custom: &self.custom, hint: &self.hint }
    }
}

fn any_case(random: &mut Random) -> Case {
    let custom = custom_runs::any(random);
    let n = if random.percent(10) { 0 } else { random.up_to(2000) };
    Case {
        buffer_len: if random.percent(90) { SIZE } else { random.one_of(&[0, 1, 255, 257, 300, 512]) },
        fields: images::fields(random),
        firmware: random.bytes(n),
        custom,
        hint: random.array(),
        signature: random.array(),
    }
}

/// Number and buffer of both calls; a refusal leaves the buffers as they were.
fn same_answers(case: &Case) -> (u32, Vec<u8>) {
    let parts = case.parts();
    let mut buffer = vec![PAINT; case.buffer_len];
    let number = writer::write_header(&mut buffer, &parts, &case.signature).err().unwrap_or(0);
    let written = frondicare::write_header(case.buffer_len, &parts, &case.signature);
    assert_eq!(written, (number, buffer), "firmware of {}, custom {}", case.firmware.len(), hex(&case.custom));
    assert!(number == 0 || written.1.iter().all(|&byte| byte == PAINT), "refused, and written");
    let digest = match writer::digest_to_sign(&parts) {
        Ok(digest) => (0, digest),
        Err(number) => (number, UNTOUCHED),
    };
    assert_eq!(frondicare::digest_to_sign(&parts), digest, "custom {}", hex(&case.custom));
    written
}

/// What was written passes, and each tag lies where document 01 puts it, with what was given.
fn check_written(case: &Case, header: &[u8]) {
    let image = [header, &case.firmware].concat();
    assert_eq!((frondicare::verify(&image, true), frondicare::verify(&image, false)), (0, 18));
    let digest = frondicare::digest_to_sign(&case.parts()).1;
    let after = case.custom.len();
    let expected: [(u16, usize, &[u8]); 6] = [
        (VERSION, 8, &case.fields.version.to_le_bytes()),
        (TIMESTAMP, 16, &case.fields.timestamp.to_le_bytes()),
        (FIRMWARE_TYPE, 28, &case.fields.firmware_type.to_le_bytes()),
        (HINT, 34 + after, &case.hint),
        (DIGEST, 70 + after, &digest),
        (SIGNATURE, 106 + after, &case.signature),
    ];
    for (kind, place, content) in expected {
        assert_eq!(frondicare::find_tag(header, kind), Tag { number: 0, at: place + 4, len: content.len() });
        assert_eq!(&header[place + 4..][..content.len()], content);
    }
    assert_eq!(header[34..34 + after], case.custom);
    assert!(header[174 + after..].iter().all(|&byte| byte == 0xff));
}

#[test]
fn headers() {
    let mut random = Random::new();
    let mut seen = Seen::default();
    let mut full = 0;
    for _ in 0..30_000 {
        let case = any_case(&mut random);
        let (number, header) = same_answers(&case);
        seen.add(number);
        if number == 0 {
            check_written(&case, &header);
            full += usize::from(case.custom.len() == MOST_CUSTOM);
        }
    }
    seen.each(500, &[0, 10, 12, 26, 27]);
    assert!(full > 500, "full custom runs: {full}");
}

/// Firmware at its greatest length is not 12, and one byte more is. Every call is refused, so that nothing is hashed.
#[test]
fn longest_firmware() {
    let zeros = vec![0u8; MOST_FIRMWARE + 1];
    let mut random = Random::new();
    let mut case = any_case(&mut random);
    for (n, custom, number) in [
        (MOST_FIRMWARE + 1, vec![], 12),
        (MOST_FIRMWARE + 1, vec![0xff; 83], 12),
        (MOST_FIRMWARE, vec![0xff; 83], 26),
        (MOST_FIRMWARE, vec![0xff; 82], 27),
        (0, vec![0xff; 83], 12),
    ] {
        case.custom = custom;
        let parts = Parts { firmware: &zeros[..n], ..case.parts() };
        assert_eq!(frondicare::digest_to_sign(&parts), (number, UNTOUCHED));
        assert_eq!(frondicare::write_header(SIZE, &parts, &case.signature), (number, vec![PAINT; SIZE]));
        assert_eq!(frondicare::write_header(SIZE - 1, &parts, &case.signature), (10, vec![PAINT; SIZE - 1]));
    }
}
