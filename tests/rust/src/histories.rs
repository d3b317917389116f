//! Histories of demand 3: on one board the list of power-ups that updates it, and the list that returns.
use crate::answers::{answer_kind, Answer};
use crate::cuts::{self, Left};
use crate::decisions::Signed;
use crate::flash::{Areas, Slot};
use crate::power_ups::{Checker, PowerUps};
use crate::random::Random;
use crate::runs::{self, Counts};
use crate::staged::Staged;
use crate::totals::{Totals, LISTS};
use crate::trailers::{image, sound_with, TESTING};

/// Where a cut falls, once its power-up has done so many steps.
#[derive(Clone, Copy)]
pub enum Fall {
    Before,
    On(Left),
    /// Chosen at random when the step due is known.
    Any,
}

#[derive(Clone, Copy)]
pub struct Cut {
    pub number: u32,
    pub fall: Fall,
}

/// BOOT's image and UPDATE's.
pub fn images(areas: &Areas, flash: &[u8]) -> [Vec<u8>; 2] {
    [Slot::Boot, Slot::Update].map(|slot| image(areas, flash, slot).to_vec())
}

/// All cuts that may fall when so many steps are done, of what they leave a choice; and whether a step was due.
pub fn each_cut(board: &Staged, flash: &[u8], number: u32) -> (Vec<Cut>, bool) {
    let both = Signed { boot: true, update: true };
    let due = runs::run(&mut flash.to_vec(), &board.geometry, both, number, &mut Counts::default());
    let on = due.step().map_or(&[][..], cuts::kinds).iter().map(|&left| Fall::On(left));
    (on.chain([Fall::Before]).map(|fall| Cut { number, fall }).collect(), due.step().is_some())
}

fn choose(random: &mut Random, due: Answer, fall: Fall) -> Option<Left> {
    match fall {
        Fall::Before => None,
        Fall::On(left) => Some(left),
        Fall::Any if random.percent(25) => None,
        Fall::Any => due.step().map(|step| random.one_of(cuts::kinds(step))),
    }
}

/// A history under way.
pub struct History<'a> {
    pub board: &'a Staged,
    pub checker: &'a Checker,
    pub totals: &'a mut Totals,
}

impl History<'_> {
    fn cut(&mut self, random: &mut Random, list: &str, ups: &mut PowerUps, cut: Cut) {
        let Some(due) = ups.cut_after(random, cut.number) else {
            self.totals.places.add(format!("{list}: after the last step"));
            return;
        };
        let (kind, step) = (answer_kind(due), due.step().expect("a step is due"));
        let place = format!("{kind} {}", ups.target(step));
        let Some(left) = choose(random, due, cut.fall) else {
            self.totals.places.add(format!("{list}: before {place}"));
            return;
        };
        self.totals.places.add(format!("{list}: on {place}"));
        self.totals.left.add(format!("{kind}: {left:?}"));
        ups.fall_on(random, due, left);
    }

    /// The list of power-ups with these cuts, from a flash on: the flash that it leaves.
    pub fn list(&mut self, random: &mut Random, list: usize, flash: &[u8], cuts: &[Cut]) -> Vec<u8> {
        let mut ups = PowerUps::new(self.board.geometry, flash, self.checker);
        for &cut in cuts {
            if !ups.booted {
                self.cut(random, LISTS[list], &mut ups, cut);
            }
        }
        if !ups.booted {
            ups.uncut(random);
        }
        self.totals.add(list, self.board.geometry.sector_count, &ups);
        ups.flash().to_vec()
    }
}

/// A whole history: the images change places and BOOT is on trial, then they are as they were.
pub fn history(random: &mut Random, board: &Staged, cuts: [&[Cut]; 2], totals: &mut Totals) {
    let Staged { geometry, flash } = board;
    let areas = geometry.areas(flash.len()).expect("the geometry fits");
    let [old, new] = images(&areas, flash);
    let checker = Checker { signed: vec![old.clone(), new.clone()] };
    let mut history = History { board, checker: &checker, totals };
    let updated = history.list(random, 0, flash, cuts[0]);
    assert!(sound_with(&areas, &updated, Slot::Boot, TESTING), "{geometry:?}: not on trial");
    assert!(images(&areas, &updated) == [new.clone(), old.clone()], "{geometry:?}: not exchanged");
    let returned = history.list(random, 1, &updated, cuts[1]);
    assert!(images(&areas, &returned) == [old, new], "{geometry:?}: not as they were");
    totals.histories += 1;
}
