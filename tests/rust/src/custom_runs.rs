//! Random runs of custom tags, some of them damaged.
use crate::images::{self, SPECIAL_TYPES};
use crate::random::Random;
use crate::writer::{MOST_CUSTOM, NAMED};

/// One fault: cut or too long, a type that is not free, or padding in front, between or behind.
fn damage(random: &mut Random, run: &mut Vec<u8>) {
    match random.up_to(5) {
        0 => run.truncate(random.up_to(run.len())),
        1 => run.resize(MOST_CUSTOM + 1 + random.up_to(3) * random.up_to(100), random.one_of(&[0xff, 0x00])),
        2 => run.insert(random.up_to(run.len()), random.one_of(&[0xff, 0x00])),
        3 if run.len() > 1 => run[..2].copy_from_slice(&random.one_of(&NAMED).to_le_bytes()),
        4 if run.len() > 1 => run[..2].copy_from_slice(&random.one_of(&SPECIAL_TYPES).to_le_bytes()),
        _ if run.len() > 3 => run[2] ^= 1 << random.up_to(7),
        _ => run.push(random.number() as u8),
    }
}

/// Often of the greatest length, at times longer; damaged in two of five.
pub fn any(random: &mut Random) -> Vec<u8> {
    let most = random.one_of(&[MOST_CUSTOM, MOST_CUSTOM, MOST_CUSTOM + 1, 200]);
    let mut run = images::custom_run(random, most);
    if random.percent(40) {
        damage(random, &mut run);
    }
    run
}
