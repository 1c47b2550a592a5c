//! The whole state after every single tick of a replay, and the first program's numbers
//! of met marks counted anew from its windows.

use peer::brute::replay::releases;
use peer::gen::{log, state};

use super::super::dispatch::{begun, Both};
use super::super::held::kept_true;
use super::same_on;
use crate::course::{Compared, Course, Difference};
use crate::draw::run_table;

/// Tables replayed from fresh, and the ticks of each.
const TABLES: u32 = 1_200;
const TICKS: u32 = 250;

/// States that most often no run from fresh reaches, and the most ticks of each.
const STATES: u32 = 5_000;
const STATE_TICKS: u32 = 60;

/// Tick by tick, each with what is left of the log.
fn by_ticks(course: &mut Course, both: &mut Both, ticks: u32) -> Compared {
    let jobs = releases(&both.peer, ticks, usize::MAX);
    let numbers = log(&mut course.rng, &jobs);
    let mut rest = &numbers[..];
    for _ in 0..ticks {
        let most = rest.len().min(40);
        let replayed = same_on(course, both, 1, &rest[..most], &[])?;
        kept_true(both.first.words()).map_err(Difference)?;
        rest = &rest[replayed.used as usize..];
    }
    Ok(())
}

/// From fresh, tables admitted and not, of any number of rows.
pub fn from_fresh(course: &mut Course) -> Compared {
    for _ in 0..TABLES {
        let table = run_table(&mut course.rng);
        let mut both = begun(course, &table)?;
        by_ticks(course, &mut both, TICKS)?;
    }
    Ok(())
}

/// From any well-formed state; those close to the clock's end are ticked past it.
pub fn drawn(course: &mut Course) -> Compared {
    for _ in 0..STATES {
        let words = state(&mut course.rng);
        let mut both = Both::new(&mut course.rng, &words);
        let ticks = course.rng.word(1, STATE_TICKS);
        by_ticks(course, &mut both, ticks)?;
    }
    Ok(())
}
