//! The flash of document 01, written plainly: its geometry, and the steps carried out on it. What the library is compared
//! with, and what its speed is measured against. An `Err` holds a number of the paper's table "Numbers given
//! back".
use std::ops::Range;

pub const CLOSING: [u8; 4] = [0x42, 0x4f, 0x4f, 0x54];

/// Where the areas lie, as a caller gives it.
#[repr(C)]
#[derive(Clone, Copy, Debug)]
pub struct Geometry {
    pub sector_size: usize,
    pub sector_count: usize,
    pub boot: usize,
    pub update: usize,
    pub swap: usize,
}

#[derive(Clone, Copy, Debug, PartialEq)]
pub enum Step {
    Erase { at: usize },
    Copy { from: usize, to: usize },
    Byte { at: usize, value: u8 },
    Mark { at: usize },
}

#[derive(Clone, Copy, Debug, PartialEq)]
pub enum Slot {
    Boot,
    Update,
}

/// The areas of a geometry that was accepted.
#[derive(Debug)]
pub struct Areas {
    pub sector_size: usize,
    pub sector_count: usize,
    boot: Range<usize>,
    update: Range<usize>,
    pub swap: Range<usize>,
}

fn overlap(a: &Range<usize>, b: &Range<usize>) -> bool {
    a.start < b.end && b.start < a.end
}

impl Geometry {
    /// Numbers 1 to 4.
    pub fn areas(&self, flash_len: usize) -> Result<Areas, u32> {
        let Geometry { sector_size, sector_count, .. } = *self;
        if !sector_size.is_power_of_two() || !(256..=4096).contains(&sector_size) {
            return Err(1);
        }
        if sector_count == 0 || sector_count > 64 {
            return Err(2);
        }
        let area = |start: usize, sectors: usize| match start.checked_add(sectors * sector_size) {
            Some(end) if start & (sector_size - 1) == 0 && end <= flash_len => Ok(start..end),
            _ => Err(3u32),
        };
        let slot = sector_count + 1;
        let (boot, update, swap) = (area(self.boot, slot)?, area(self.update, slot)?, area(self.swap, 1)?);
        if overlap(&boot, &update) || overlap(&boot, &swap) || overlap(&update, &swap) {
            return Err(4);
        }
        Ok(Areas { sector_size, sector_count, boot, update, swap })
    }
}

impl Areas {
    pub fn slot(&self, slot: Slot) -> &Range<usize> {
        match slot {
            Slot::Boot => &self.boot,
            Slot::Update => &self.update,
        }
    }

    pub fn trailer(&self, slot: Slot) -> Range<usize> {
        let end = self.slot(slot).end;
        end - self.sector_size..end
    }

    /// The sector that starts at a place; 24 where none does.
    fn sector(&self, at: usize) -> Result<Range<usize>, u32> {
        let within = self.boot.contains(&at) || self.update.contains(&at) || self.swap.contains(&at);
        if within && at & (self.sector_size - 1) == 0 {
            Ok(at..at + self.sector_size)
        } else {
            Err(24)
        }
    }

    fn in_either_trailer(&self, at: usize) -> bool {
        self.trailer(Slot::Boot).contains(&at) || self.trailer(Slot::Update).contains(&at)
    }

    fn closes_a_slot(&self, at: usize) -> bool {
        at == self.boot.end - 4 || at == self.update.end - 4
    }
}

/// A write can only clear bits.
fn write(target: &mut [u8], data: &[u8]) {
    for (old, byte) in target.iter_mut().zip(data) {
        *old &= byte;
    }
}

/// Two sectors that are not the same, the second for writing.
fn two_sectors(flash: &mut [u8], source: Range<usize>, target: Range<usize>) -> (&[u8], &mut [u8]) {
    if source.start < target.start {
        let (before, rest) = flash.split_at_mut(target.start);
        (&before[source], &mut rest[..target.len()])
    } else {
        let (before, rest) = flash.split_at_mut(source.start);
        (&rest[..source.len()], &mut before[target])
    }
}

/// Carries a step out. Numbers 1 to 4, then 24; a refusal leaves the flash as it is.
pub fn apply(flash: &mut [u8], geometry: &Geometry, step: Step) -> Result<(), u32> {
    let areas = geometry.areas(flash.len())?;
    match step {
        Step::Erase { at } => flash[areas.sector(at)?].fill(0xff),
        Step::Copy { from, to } if from != to => {
            let (source, target) = two_sectors(flash, areas.sector(from)?, areas.sector(to)?);
            write(target, source);
        }
        Step::Byte { at, value } if areas.in_either_trailer(at) => flash[at] &= value,
        Step::Mark { at } if areas.closes_a_slot(at) => write(&mut flash[at..at + 4], &CLOSING),
        _ => return Err(24),
    }
    Ok(())
}
