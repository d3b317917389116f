//! Boards of demand 3 in the middle of their update or of the return.
use super::Board;
use crate::decisions::Signed;
use crate::random::Random;
use crate::runs::{self, Counts, MOST_STEPS};
use crate::staged::{self, Staged};

const BOTH: Signed = Signed { boot: true, update: true };

pub fn any(random: &mut Random) -> Board {
    let n = 2 + random.up_to(3);
    let Staged { geometry, mut flash } = staged::any(random, (256, n));
    for _ in 0..random.up_to(1) {
        runs::run(&mut flash, &geometry, BOTH, MOST_STEPS, &mut Counts::default());
    }
    let number = random.up_to(9 * n + 4) as u32;
    runs::run(&mut flash, &geometry, BOTH, number, &mut Counts::default());
    Board { geometry, flash, signed: BOTH }
}
