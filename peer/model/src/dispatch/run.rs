//! The run, with sets of rows kept beside the rows so that choosing is quick.

use super::bits::{each, Bits};
use super::steps::{end_of_run, patterns_of, release, settle};
use super::{Row, State};
use crate::answer::Answer;
use crate::table::ROWS_MAX;

/// "every wait, and the ticks left of every live job, fall by one." Gives the
/// rows now due for release and the live ones whose deadline is reached. The
/// waits are gone through from the lowest row up, so that each row's bit is
/// shifted into its place; only live rows are visited for the second part.
#[inline]
fn fall(rows: &mut [Row], live: u32) -> (u32, u32) {
    let (mut due, mut reached) = (0, 0);
    for row in rows.iter_mut().rev() {
        row.wait -= 1;
        due = due << 1 | u32::from(row.wait == 0);
    }
    for at in each(live) {
        let left = &mut rows[at].left;
        *left -= 1;
        reached |= u32::from(*left == 0) << at;
    }
    (due, reached)
}

/// One tick on rows known to be well formed: release, choose, work, settle. The
/// work of each released job is asked for, from the highest row down. The clock and
/// the idle count are the caller's. Gives the row that was chosen.
#[inline]
pub(super) fn one_tick(
    rows: &mut [Row],
    patterns: &[u64; ROWS_MAX],
    bits: &mut Bits,
    mut work: impl FnMut(&Row) -> u32,
) -> Option<usize> {
    for at in each(bits.due) {
        let work = work(&rows[at]);
        let kind = release(&mut rows[at], patterns[at], work);
        bits.enter(at, kind);
    }
    let chosen = bits.chosen();
    let mut done = 0;
    if let Some(at) = chosen {
        rows[at].work -= 1;
        done = u32::from(rows[at].work == 0) << at;
    }
    let (due, reached) = fall(rows, bits.live());
    bits.due = due;
    for at in each(done | reached) {
        settle(&mut rows[at]);
        bits.leave(at);
    }
    chosen
}

/// "A run of n ticks is n such ticks. n is any 32-bit number; a run of 0
/// changes nothing." "For a run: 14, 15." A refused run leaves the state as it
/// was.
pub fn run(state: &mut State, n: u32) -> Answer {
    run_watched(state, n, |_| ())
}

/// The same run, and at every tick the chosen row is shown to `watch`, or
/// `None` when the tick is idle.
pub fn run_watched(state: &mut State, n: u32, mut watch: impl FnMut(Option<usize>)) -> Answer {
    let end = match end_of_run(state, n) {
        Ok(end) => end,
        Err(answer) => return answer,
    };
    let rows = &mut state.row[..state.rows as usize];
    let patterns = patterns_of(rows);
    let mut bits = Bits::of(rows);
    let mut idle = state.idle;
    for _ in 0..n {
        let chosen = one_tick(rows, &patterns, &mut bits, |row| row.c);
        idle += u32::from(chosen.is_none());
        watch(chosen);
    }
    state.idle = idle;
    state.time = end;
    Answer::accepted(0)
}

/// One tick, refused as a run of one is: "a tick is defined on each such state
/// below the clock's end".
pub fn tick(state: &mut State) -> Answer {
    run(state, 1)
}
