//! The whole state after every single tick, and the first program's numbers of met
//! marks counted anew from its windows.

use peer::gen::state;

use super::fresh::begun;
use super::{Both, Counted};
use crate::course::{Compared, Course};
use crate::draw::run_table;

/// Tables run from fresh.
const TABLES: u32 = 4_000;

/// The fewest and the most ticks of each.
const TICKS: (u64, u64) = (100, 500);

/// States that most often no run from fresh reaches.
const STATES: u32 = 12_000;

/// The most ticks of each.
const STATE_TICKS: u64 = 80;

/// From fresh, tables admitted and not, of any number of rows.
pub fn from_fresh(course: &mut Course) -> Compared {
    let mut counted = Counted::default();
    for _ in 0..TABLES {
        let table = run_table(&mut course.rng);
        let mut both = begun(course, &table)?;
        for _ in 0..course.rng.between(TICKS.0, TICKS.1) {
            both.tick(course)?;
        }
        counted.add(&both.peer);
    }
    counted.reached()
}

/// "a tick is defined on each such state below the clock's end"; those close to
/// it are ticked past it.
pub fn drawn(course: &mut Course) -> Compared {
    for _ in 0..STATES {
        let words = state(&mut course.rng);
        let mut both = Both::new(&mut course.rng, &words);
        for _ in 0..course.rng.between(1, STATE_TICKS) {
            both.tick(course)?;
        }
    }
    Ok(())
}
