//! Lookup of a header's last tag, and the list of all its tags.
use crate::compare::compare;
use frondicare_tests::frondicare;
use frondicare_tests::header::{self, FIRST, SIGNATURE};
use std::hint::black_box;

/// The lengths of all tags together and their number, by one lookup for each from where the last one goes on.
fn all(mut next: impl FnMut(usize) -> Option<(usize, usize)>) -> (usize, usize) {
    let (mut count, mut bytes, mut from) = (0, 0, FIRST);
    while let Some((len, next)) = next(from) {
        count += 1;
        bytes += len;
        from = next;
    }
    (count, bytes)
}

fn list(name: &str, calls: usize, bytes: &[u8]) {
    compare(
        name,
        calls,
        || all(|from| header::next_tag(black_box(bytes), from, None).ok().map(|tag| (tag.len, tag.next))),
        || {
            all(|from| {
                let tag = frondicare::next_tag(black_box(bytes), from, None);
                (tag.number == 0).then_some((tag.len, tag.next))
            })
        },
    );
}

pub fn all_calls(image: &[u8]) {
    compare(
        "lookup of a written header's last tag",
        200_000,
        || header::find_tag(black_box(image), black_box(SIGNATURE)).map_or((0, 0), |tag| (tag.at, tag.len)),
        || {
            let tag = frondicare::find_tag(black_box(image), black_box(SIGNATURE));
            (tag.at, tag.len)
        },
    );
    list("list of a written header's six tags", 100_000, image);
    let crowded = [[0xff; FIRST].as_slice(), &[0x34, 0x12, 0, 0].repeat(62)].concat();
    list("list of 62 tags", 10_000, &crowded);
}
