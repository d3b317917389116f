//! A flash on which the library and the plain implementation decide the same and carry out the same steps.
use crate::answers::Answer;
use crate::decisions::{self, Signed};
use crate::flash::{Geometry, Slot};
use crate::frondicare::{self, PAINT};
use crate::raw_step::RawStep;
use crate::runs::{self, Counts};
use crate::states::{self, SlotState};
use crate::{loader, requests, runner};
use std::fmt::Debug;

/// Bytes before and after a flash that are not lent: more than a sector.
const GUARD: usize = 4096 + 64;

/// A flash with bytes around it that have to stay.
pub struct Guarded {
    bytes: Vec<u8>,
    start: usize,
    len: usize,
}

impl Guarded {
    /// The shift lets a flash start at any address.
    pub fn new(contents: &[u8], shift: usize) -> Guarded {
        let start = GUARD + shift;
        Guarded { bytes: [&vec![PAINT; start], contents, &[PAINT; GUARD]].concat(), start, len: contents.len() }
    }

    pub fn flash(&self) -> &[u8] {
        &self.bytes[self.start..][..self.len]
    }

    fn lent(&mut self) -> &mut [u8] {
        &mut self.bytes[self.start..][..self.len]
    }

    /// Every byte is as expected, those around the flash too.
    fn same_bytes(&self, expected: &[u8], call: impl Fn() -> String) {
        if self.bytes != expected {
            let i = (0..expected.len()).find(|&i| self.bytes[i] != expected[i]).unwrap();
            let (place, is, should) = (i as isize - self.start as isize, self.bytes[i], expected[i]);
            panic!("{}, flash of {}: {is:02x} at {place}, not {should:02x}", call(), self.len);
        }
    }

    /// The library's answer. It is the plain one, so is every byte afterwards, and a refusal changes none.
    pub fn apply(&mut self, geometry: &Geometry, step: impl Into<RawStep>) -> u32 {
        let (step, before) = (step.into(), self.bytes.clone());
        let mut expected = before.clone();
        let number = step.apply(&mut expected[self.start..][..self.len], geometry);
        let answer = frondicare::apply_step(self.lent(), geometry, step);
        assert_eq!(answer, number, "{geometry:?}, flash of {}, {step:?}", self.len);
        assert!(
            answer == 0 || self.bytes == before,
            "{geometry:?}, flash of {}, {step:?}: refused, and written",
            self.len
        );
        self.same_bytes(&expected, || format!("{geometry:?}, {step:?}"));
        answer
    }

    /// A run. The library's answer is the plain one in every field, and so are the record and every byte afterwards.
    pub fn run(&mut self, geometry: &Geometry, signed: Signed, number: u32, counts: &mut Counts) -> Answer {
        let (before, mut expected, mut plain_counts) = (*counts, self.bytes.clone(), *counts);
        let plain_flash = &mut expected[self.start..][..self.len];
        let plain = runs::run(plain_flash, geometry, signed, number, &mut plain_counts);
        let answer = runner::run(self.lent(), geometry, signed, number, counts);
        let call = || format!("{geometry:?}, {signed:?}, number {number}, {before:?}");
        assert_eq!(answer, plain.into(), "{}, flash of {}", call(), self.len);
        assert_eq!(*counts, plain_counts, "{}, flash of {}", call(), self.len);
        self.same_bytes(&expected, call);
        plain
    }

    /// Somebody else writes the flash.
    pub fn put(&mut self, place: usize, data: &[u8]) {
        self.lent()[place..place + data.len()].copy_from_slice(data);
    }

    /// The plain answer. The library's is the same in every field, and leaves every byte as it is.
    fn same<T, R>(&self, geometry: &Geometry, plain: T, proved: impl Fn(&[u8]) -> R) -> T
    where
        T: Copy + Debug + Into<R>,
        R: PartialEq + Debug,
    {
        let before = self.bytes.clone();
        let answer = proved(self.flash());
        assert_eq!(answer, plain.into(), "{geometry:?}, flash of {}, {plain:?}", self.len);
        assert!(self.bytes == before, "{geometry:?}, flash of {}, {plain:?}: written", self.len);
        plain
    }

    pub fn next_step(&self, geometry: &Geometry, signed: Signed) -> Answer {
        let plain = decisions::next_step(self.flash(), geometry, signed);
        self.same(geometry, plain, |flash| loader::next_step(flash, geometry, signed))
    }

    pub fn trigger(&self, geometry: &Geometry) -> Answer {
        let plain = requests::trigger(self.flash(), geometry);
        self.same(geometry, plain, |flash| loader::trigger(flash, geometry))
    }

    pub fn confirm(&self, geometry: &Geometry) -> Answer {
        let plain = requests::confirm(self.flash(), geometry);
        self.same(geometry, plain, |flash| loader::confirm(flash, geometry))
    }

    pub fn slot_state(&self, geometry: &Geometry, slot: Slot) -> SlotState {
        let plain = states::slot_state(self.flash(), geometry, slot);
        self.same(geometry, plain, |flash| loader::slot_state(flash, geometry, slot))
    }

    pub fn in_mid_swap(&self, geometry: &Geometry) -> bool {
        let plain = states::in_mid_swap(self.flash(), geometry);
        self.same(geometry, plain, |flash| loader::in_mid_swap(flash, geometry))
    }
}
