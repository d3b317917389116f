//! What happened in many histories of demand 3, so that a test over them cannot become empty unnoticed.
use crate::cuts::{self, Left};
use crate::power_ups::PowerUps;
use crate::seen::Seen;
use crate::test_name;
use std::collections::BTreeMap;

/// The two lists of a history.
pub const LISTS: [&str; 2] = ["update", "return"];

/// What happened in all histories of a test.
#[derive(Default)]
pub struct Totals {
    pub histories: usize,
    cuts: usize,
    steps: usize,
    /// How far each list was from its bound at the least, by the number of sectors.
    slack: BTreeMap<usize, [Option<usize>; 2]>,
    /// The most cuts of a list that met its bound exactly.
    cuts_met: [usize; 2],
    /// Where cuts fell, and what they left.
    pub places: Seen<String>,
    pub left: Seen<String>,
}

/// Before each step or on it, by its kind and target; and after the last one.
fn all_places() -> Vec<String> {
    const EXCHANGE: &str = "E SWAP, E UPDATE, E BOOT, C SWAP, C UPDATE, C BOOT, B a flag, LAST B UPDATE's state";
    const RENEWALS: [&str; 2] =
        ["E BOOT's trailer, B BOOT's state, M BOOT", "E UPDATE's trailer, B UPDATE's state, M UPDATE"];
    let mut places: Vec<String> = LISTS.map(|list| format!("{list}: after the last step")).to_vec();
    for (list, renewal) in LISTS.into_iter().zip(RENEWALS) {
        for step in EXCHANGE.split(", ").chain(renewal.split(", ")) {
            places.extend(["before", "on"].map(|fall| format!("{list}: {fall} {step}")));
        }
    }
    places
}

fn all_left() -> Vec<String> {
    let of = |kind: &str, list: &[Left]| list.iter().map(|left| format!("{kind}: {left:?}")).collect::<Vec<_>>();
    let sectors = ["E", "C"].map(|kind| of(kind, &cuts::OF_A_SECTOR));
    let bytes = ["B", "M", "LAST B"].map(|kind| of(kind, &cuts::OF_A_BYTE));
    sectors.into_iter().chain(bytes).flatten().collect()
}

impl Totals {
    /// A list that has ended. It keeps its bound.
    pub fn add(&mut self, list: usize, sectors: usize, ups: &PowerUps) {
        let bound = 9 * sectors + 4 + 2 * ups.cuts;
        let slack = bound.checked_sub(ups.begun);
        let slack = slack.unwrap_or_else(|| panic!("{} steps begun, and {} cuts", ups.begun, ups.cuts));
        let least = &mut self.slack.entry(sectors).or_default()[list];
        *least = Some(least.map_or(slack, |least| least.min(slack)));
        if slack == 0 {
            self.cuts_met[list] = self.cuts_met[list].max(ups.cuts);
        }
        self.cuts += ups.cuts;
        self.steps += ups.begun;
    }

    /// Prints them. Both bounds were met exactly by some history, and each place and each kind of what is left occurred
    /// at least so many times.
    pub fn report(&self, least: usize) {
        let Totals { histories, cuts, steps, slack, cuts_met, .. } = self;
        println!("{}: {histories} histories, {cuts} cuts, {steps} steps begun", test_name());
        let by_n: Vec<_> = slack.iter().map(|(n, two)| format!("n {n}: {:?}", two.map(Option::unwrap))).collect();
        println!("{}: least slack of update and return: {}", test_name(), by_n.join(", "));
        println!("{}: cuts of update and return that met the bound: up to {cuts_met:?}", test_name());
        assert!((0..2).all(|list| slack.values().any(|two| two[list] == Some(0))), "a bound was not met");
        self.places.each(least, &all_places());
        self.left.each(least, &all_left());
    }
}
