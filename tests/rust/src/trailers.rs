//! A slot's trailer and UPDATE's flags, as document 01 has them, read plainly on a flash whose geometry was accepted.
use crate::flash::{Areas, Slot, Step, CLOSING};

/// States.
pub const UPDATING: u8 = 0x70;
pub const TESTING: u8 = 0x10;
pub const SPENT: u8 = 0x30;
pub const SUCCESS: u8 = 0x00;

const NEW: u8 = 0xf;
const UPDATED: u8 = 0x0;
/// What a sector's flag becomes one after the other.
const FLAGS: [u8; 4] = [NEW, 0x7, 0x3, UPDATED];

/// Sectors 0 to n - 1.
pub fn image<'a>(areas: &Areas, flash: &'a [u8], slot: Slot) -> &'a [u8] {
    &flash[areas.slot(slot).start..areas.trailer(slot).start]
}

/// Where a slot has its state.
pub fn state_place(areas: &Areas, slot: Slot) -> usize {
    areas.slot(slot).end - 5
}

pub fn sound_with(areas: &Areas, flash: &[u8], slot: Slot, state: u8) -> bool {
    let trailer = &flash[areas.trailer(slot)];
    trailer.ends_with(&CLOSING) && trailer[trailer.len() - 5] == state
}

/// Where the byte with a sector's flag lies, and by how many bits the flag is shifted in it.
pub fn flag_place(areas: &Areas, sector: usize) -> (usize, usize) {
    (state_place(areas, Slot::Update) - 1 - sector / 2, 4 * (sector % 2))
}

fn flag(areas: &Areas, flash: &[u8], sector: usize) -> u8 {
    let (at, shift) = flag_place(areas, sector);
    flash[at] >> shift & 0xf
}

/// A sector's flag after so many changes of flags, three for each sector, from the first sector on.
pub fn flag_after(changes: usize, sector: usize) -> u8 {
    FLAGS[changes.saturating_sub(3 * sector).min(3)]
}

/// How many changes of flags have been made; 20 where the flags are not some 0s, then at most one 7 or 3, then F only.
pub fn progress(areas: &Areas, flash: &[u8]) -> Result<usize, u32> {
    let n = areas.sector_count;
    let mut flags = (0..n).map(|i| flag(areas, flash, i));
    let Some(sector) = flags.position(|flag| flag != UPDATED) else { return Ok(3 * n) };
    let stage = FLAGS.iter().position(|&value| value == flag(areas, flash, sector)).ok_or(20u32)?;
    if flags.all(|flag| flag == NEW) {
        Ok(3 * sector + stage)
    } else {
        Err(20)
    }
}

fn all(areas: &Areas, flash: &[u8], value: u8) -> bool {
    (0..areas.sector_count).all(|i| flag(areas, flash, i) == value)
}

pub fn all_new(areas: &Areas, flash: &[u8]) -> bool {
    all(areas, flash, NEW)
}

pub fn all_updated(areas: &Areas, flash: &[u8]) -> bool {
    all(areas, flash, UPDATED)
}

/// The next change of flags after so many; none after the last. The flags themselves are not checked.
pub fn flag_step(areas: &Areas, flash: &[u8], changes: usize) -> Option<Step> {
    let sector = changes / 3;
    if sector >= areas.sector_count {
        return None;
    }
    let (at, shift) = flag_place(areas, sector);
    let value = flash[at] & !(0xf << shift) | FLAGS[changes % 3 + 1] << shift;
    Some(Step::Byte { at, value })
}

/// The next step that renews a trailer to a state; none where it is finished.
pub fn renewal(areas: &Areas, flash: &[u8], slot: Slot, state: u8) -> Option<Step> {
    if sound_with(areas, flash, slot, state) && (slot == Slot::Boot || all_new(areas, flash)) {
        return None;
    }
    let (trailer, at) = (areas.trailer(slot), state_place(areas, slot));
    let mut written = flash[trailer.clone()].iter().zip(trailer.clone()).filter(|(&byte, _)| byte != 0xff);
    Some(match (written.next(), written.next()) {
        (None, _) => Step::Byte { at, value: state },
        (Some((&byte, place)), None) if place == at && byte == state => Step::Mark { at: at + 1 },
        _ => Step::Erase { at: trailer.start },
    })
}
