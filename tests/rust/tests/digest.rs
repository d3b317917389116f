//! The library's digest against the plain one, in one piece and in two, and the refusal at its bound.
use frondicare_tests::frondicare::{digest, digest_of_two, UNTOUCHED};
use frondicare_tests::random::Random;
use frondicare_tests::sha256;

const LONGEST: usize = 4_294_967_295;

fn bytes_of(hex: &str) -> Vec<u8> {
    (0..hex.len() / 2).map(|i| u8::from_str_radix(&hex[2 * i..2 * i + 2], 16).unwrap()).collect()
}

/// Both implementations against FIPS's published digests, so that neither is only held to the other.
#[test]
fn published_examples() {
    let million = vec![b'a'; 1_000_000];
    let examples: [(&[u8], &str); 4] = [
        (b"", "e3b0c44298fc1c149afbf4c8996fb92427ae41e4649b934ca495991b7852b855"),
        (b"abc", "ba7816bf8f01cfea414140de5dae2223b00361a396177a9cb410ff61f20015ad"),
        (
            b"abcdbcdecdefdefgefghfghighijhijkijkljklmklmnlmnomnopnopq",
            "248d6a61d20638b8e5c026930c3e6039a33ce45964ff2167f6ecedd419db06c1",
        ),
        (&million, "cdc76e5c9914fb9281a1c7e284d73e67f1809a48a497200e046d39ccc7112cd0"),
    ];
    for (message, printed) in examples {
        assert_eq!(sha256::digest(message).to_vec(), bytes_of(printed));
        assert_eq!(digest(message), (0, sha256::digest(message)));
    }
}

#[test]
fn every_length_to_1000() {
    let message = Random::new().bytes(1000);
    for n in 0..=1000 {
        assert_eq!(digest(&message[..n]), (0, sha256::digest(&message[..n])), "length {n}");
    }
}

#[test]
fn long_inputs() {
    let mut random = Random::new();
    for _ in 0..200 {
        let n = random.up_to(300_000);
        let message = random.bytes(n);
        let expected = (0, sha256::digest(&message));
        assert_eq!(digest(&message), expected, "length {n}");
        let cut = random.up_to(n);
        assert_eq!(digest_of_two(&message[..cut], &message[cut..]), expected, "length {n} cut at {cut}");
    }
}

#[test]
fn every_cut() {
    let message = Random::new().bytes(449);
    for n in [0, 1, 55, 56, 57, 63, 64, 65, 119, 120, 127, 128, 129, 191, 192, 200, 256, 321, 449] {
        let expected = (0, sha256::digest(&message[..n]));
        for cut in 0..=n {
            let (first, second) = (&message[..cut], &message[cut..n]);
            assert_eq!(digest_of_two(first, second), expected, "length {n} cut at {cut}");
            assert_eq!(sha256::digest_of_two(first, second), expected.1, "length {n} cut at {cut}");
        }
    }
}

/// The longest message that is not refused, all zeros. Its digest is that of coreutils:
/// head -c 4294967295 /dev/zero | sha256sum
#[test]
fn longest_message() {
    let zeros = vec![0u8; LONGEST];
    let expected = bytes_of("318eea1453f3a536e42d9637db593982c5c297220b2019bd4b7ad08e88d91e4b");
    let (number, bytes) = digest(&zeros);
    assert_eq!((number, bytes.to_vec()), (0, expected));
}

/// One byte more is refused with 12, wherever it is cut, and the buffer stays as it was.
#[test]
fn too_long() {
    let zeros = vec![0u8; LONGEST + 1];
    assert_eq!(digest(&zeros), (12, UNTOUCHED));
    for cut in [0, 1, 64, LONGEST / 2, LONGEST, LONGEST + 1] {
        let (first, second) = zeros.split_at(cut);
        assert_eq!(digest_of_two(first, second), (12, UNTOUCHED), "cut at {cut}");
    }
    assert_eq!(digest_of_two(&zeros, &zeros), (12, UNTOUCHED));
}
