//! What a power cut may leave of a step (document 01, "Flash steps and cuts"): a Byte or a Mark is done or not begun,
//! and the target of an Erase or a Copy holds any bytes. Of a trailer an Erase never leaves the closing bytes sound.
use crate::flash::{self, Areas, Geometry, Slot, Step, CLOSING};
use crate::random::Random;
use crate::trailers::{TESTING, UPDATING};

/// What is left in the target.
#[derive(Clone, Copy, Debug, PartialEq)]
pub enum Left {
    NotBegun,
    Done,
    Blank,
    Zeros,
    Any,
    /// The first part is done, or the last.
    FirstDone,
    LastDone,
    /// Some bytes are done.
    SomeDone,
    /// Done but for one bit.
    NearlyDone,
    /// What another sector of the areas holds.
    AnotherSector,
    /// A trailer's state 70 or 10 without the mark: all else blank, as it was, or any.
    StateAlone,
    StateOnOld,
    StateOnAny,
    /// The same with the mark, but for one bit of it.
    NearlySound,
}

pub const OF_A_SECTOR: [Left; 14] = [
    Left::NotBegun,
    Left::Done,
    Left::Blank,
    Left::Zeros,
    Left::Any,
    Left::FirstDone,
    Left::LastDone,
    Left::SomeDone,
    Left::NearlyDone,
    Left::AnotherSector,
    Left::StateAlone,
    Left::StateOnOld,
    Left::StateOnAny,
    Left::NearlySound,
];

pub const OF_A_BYTE: [Left; 2] = [Left::NotBegun, Left::Done];

/// All that a cut of this step may leave, of the sectors' contents a choice.
pub fn kinds(step: Step) -> &'static [Left] {
    match step {
        Step::Erase { .. } | Step::Copy { .. } => &OF_A_SECTOR,
        Step::Byte { .. } | Step::Mark { .. } => &OF_A_BYTE,
    }
}

/// The place of any sector of the three areas.
fn any_sector(random: &mut Random, areas: &Areas) -> usize {
    let i = random.up_to(areas.sector_count) * areas.sector_size;
    random.one_of(&[areas.swap.start, areas.slot(Slot::Boot).start + i, areas.slot(Slot::Update).start + i])
}

/// A part is done: from the first byte on, up to the last one, or some bytes.
fn half_done(random: &mut Random, old: &[u8], done: &[u8], left: Left) -> Vec<u8> {
    let (z, any) = (done.len(), random.up_to(done.len() - 1));
    let place = random.one_of(&[any, z / 2, 1, z - 1]);
    match left {
        Left::FirstDone => [&done[..place], &old[place..]].concat(),
        Left::LastDone => [&old[..place], &done[place..]].concat(),
        _ => old.iter().zip(done).map(|(&old, &done)| random.one_of(&[old, done])).collect(),
    }
}

fn but_one_bit(random: &mut Random, bytes: &[u8]) -> Vec<u8> {
    let (mut bytes, any) = (bytes.to_vec(), random.up_to(bytes.len() - 1));
    let place = random.one_of(&[any, 0, bytes.len() - 1]);
    bytes[place] ^= 1 << random.up_to(7);
    bytes
}

/// The same bytes, but the last ones are like a trailer's, with a state.
fn with_state(random: &mut Random, mut sector: Vec<u8>, mark: &[u8]) -> Vec<u8> {
    let state = sector.len() - 5;
    sector[state] = random.one_of(&[UPDATING, TESTING]);
    sector[state + 1..].copy_from_slice(mark);
    sector
}

/// What a sector holds, given what it held before and what it would hold with the step done.
fn sector(random: &mut Random, areas: &Areas, flash: &[u8], old: &[u8], done: &[u8], left: Left) -> Vec<u8> {
    let z = done.len();
    match left {
        Left::NotBegun => old.to_vec(),
        Left::Done => done.to_vec(),
        Left::Blank => vec![0xff; z],
        Left::Zeros => vec![0x00; z],
        Left::Any => random.bytes(z),
        Left::FirstDone | Left::LastDone | Left::SomeDone => half_done(random, old, done, left),
        Left::NearlyDone => but_one_bit(random, done),
        Left::AnotherSector => {
            let at = any_sector(random, areas);
            flash[at..at + z].to_vec()
        }
        Left::StateAlone => with_state(random, vec![0xff; z], &[0xff; 4]),
        Left::StateOnOld => with_state(random, old.to_vec(), &[0xff; 4]),
        Left::StateOnAny => {
            let any = random.bytes(z);
            with_state(random, any, &[0xff; 4])
        }
        Left::NearlySound => {
            let mark = but_one_bit(random, &CLOSING);
            with_state(random, old.to_vec(), &mark)
        }
    }
}

/// The flash after a cut that fell on a step.
pub fn cut(random: &mut Random, geometry: &Geometry, flash: &[u8], step: Step, left: Left) -> Vec<u8> {
    let areas = geometry.areas(flash.len()).expect("the geometry fits");
    let mut after = flash.to_vec();
    flash::apply(&mut after, geometry, step).expect("a step that was answered is accepted");
    let at = match step {
        Step::Erase { at } | Step::Copy { to: at, .. } => at,
        Step::Byte { .. } | Step::Mark { .. } => {
            assert!(kinds(step).contains(&left));
            return if left == Left::Done { after } else { flash.to_vec() };
        }
    };
    let place = at..at + areas.sector_size;
    let mut sector = sector(random, &areas, flash, &flash[place.clone()], &after[place.clone()], left);
    let trailer = [Slot::Boot, Slot::Update].iter().any(|&slot| areas.trailer(slot) == place);
    if trailer && sector.ends_with(&CLOSING) {
        let end = sector.len() - 4;
        sector[end..].copy_from_slice(&but_one_bit(random, &CLOSING));
    }
    after[place].copy_from_slice(&sector);
    after
}
