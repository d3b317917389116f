//! The library's lookups from a place on against the plain ones, and the list that they give against a plain walk.
use frondicare_tests::entries::ListedTag;
use frondicare_tests::frondicare;
use frondicare_tests::header::{self, Tag, FIRST, SIZE};
use frondicare_tests::hex;
use frondicare_tests::images::{self, SPECIAL_TYPES};
use frondicare_tests::random::Random;
use frondicare_tests::seen::Seen;

/// The most tags that a header has room for.
const MOST_TAGS: usize = (SIZE - FIRST) / 4;

fn plain(bytes: &[u8], from: usize, kind: Option<u16>) -> ListedTag {
    match header::next_tag(bytes, from, kind) {
        Ok(Tag { kind, at, len, next }) => ListedTag { number: 0, kind, at, len, next },
        Err(number) => ListedTag::refused(number),
    }
}

fn same_lookup(bytes: &[u8], from: usize, kind: Option<u16>) -> ListedTag {
    let expected = plain(bytes, from, kind);
    assert_eq!(frondicare::next_tag(bytes, from, kind), expected, "from {from}, type {kind:04x?}, {}", hex(bytes));
    expected
}

/// Many small tags, at times with padding between them, and often one that passes 256.
fn crowded(random: &mut Random) -> Vec<u8> {
    let mut bytes = random.bytes(FIRST);
    while bytes.len() < SIZE {
        let (len, padding) = (random.one_of(&[0, 0, 0, 1, 3]), random.one_of(&[0, 0, 0, 0, 1, 4]));
        let special = random.one_of(&SPECIAL_TYPES).max(1);
        let kind = if random.percent(10) { special } else { 0x0100 + random.up_to(3) as u16 };
        bytes.extend_from_slice(&kind.to_le_bytes());
        bytes.extend_from_slice(&[len, 0]);
        bytes.resize(bytes.len() + (len + padding) as usize, 0xff);
    }
    bytes
}

fn header_of(random: &mut Random) -> Vec<u8> {
    match random.up_to(2) {
        0 => images::any(random),
        1 => images::laid_out(random),
        _ => crowded(random),
    }
}

/// A type that stands at a place of the header, or a special one.
fn some_type(random: &mut Random, bytes: &[u8]) -> u16 {
    let place = random.up_to(SIZE - 2);
    match bytes.get(place..place + 2) {
        Some(&[low, high]) if random.percent(70) => u16::from_le_bytes([low, high]),
        _ => random.one_of(&SPECIAL_TYPES),
    }
}

/// Starts of which most are places of the tags where they are cut to 16 or to 32 bits, and the last ones.
const FAR: [usize; 6] = [(1 << 16) + 8, 1 << 32, (1 << 32) + 8, (1 << 32) + 256, usize::MAX - 3, usize::MAX];

/// Every start up to 300 and some far ones; so too the middle of a tag, where whatever stands there is read.
#[test]
fn from_every_place() {
    let mut random = Random::new();
    let mut seen = Seen::default();
    for _ in 0..1500 {
        let bytes = header_of(&mut random);
        for from in (0..300).chain(FAR) {
            let kind = some_type(&mut random, &bytes);
            for kind in [None, Some(kind)] {
                seen.add(same_lookup(&bytes, from, kind).number);
            }
        }
    }
    seen.each(1000, &[0, 10, 13, 25, 31]);
}

/// What lookups of any type give from 8 on, each from where the last one goes on.
fn listed(bytes: &[u8]) -> (Vec<Tag>, u32) {
    let mut list = vec![];
    let mut from = FIRST;
    loop {
        let ListedTag { number, kind, at, len, next } = frondicare::next_tag(bytes, from, None);
        if number != 0 {
            return (list, number);
        }
        list.push(Tag { kind, at, len, next });
        assert!(from < next && next <= SIZE && list.len() <= MOST_TAGS, "from {from} to {next}, {}", hex(bytes));
        from = next;
    }
}

/// The whole list is that of one walk, repeated types too; and a lookup of a type finds the first of that type.
#[test]
fn lists() {
    let mut random = Random::new();
    let mut seen = Seen::default();
    let mut longest = 0;
    for _ in 0..60_000 {
        let bytes = header_of(&mut random);
        let (list, number) = listed(&bytes);
        let expected = bytes.first_chunk().map_or((vec![], 10), header::all_tags);
        assert_eq!((&list, number), (&expected.0, expected.1), "{}", hex(&bytes));
        if let Some(tag) = list.last() {
            let first = list.iter().find(|other| other.kind == tag.kind).unwrap();
            let found = frondicare::find_tag(&bytes, tag.kind);
            assert_eq!((found.number, found.at, found.len), (0, first.at, first.len), "{}", hex(&bytes));
        }
        longest = longest.max(list.len());
        seen.add(number);
    }
    assert!(longest > 40, "{longest} tags at most");
    seen.each(300, &[10, 13, 25]);
}

/// 62 tags of length 0, the most that fit, and of each type that no tag has none is found.
#[test]
fn the_most_tags() {
    let bytes = [[0xff; FIRST].as_slice(), &[0x34, 0x12, 0, 0].repeat(MOST_TAGS)].concat();
    let (list, number) = listed(&bytes);
    assert_eq!((list.len(), number), (MOST_TAGS, 25));
    assert!((0..MOST_TAGS).all(|i| list[i].at == 12 + 4 * i && list[i].len == 0 && list[i].kind == 0x1234));
    for kind in (0..=u16::MAX).filter(|&kind| kind != 0x1234) {
        assert_eq!(frondicare::next_tag(&bytes, FIRST, Some(kind)).number, 25, "type {kind:04x}");
    }
}
