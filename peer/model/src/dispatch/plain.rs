//! The run and the replay without bit sets.

use super::replay::Replayed;
use super::steps::{end_of_run, patterns_of, release, settle};
use super::{Row, State};
use crate::answer::{refusal, Answer};
use crate::table::ROWS_MAX;

/// The same run, plainly: three loops over the rows in every tick, and nothing
/// kept beside them but the pattern words.
pub fn run_plain(state: &mut State, n: u32) -> Answer {
    let end = match end_of_run(state, n) {
        Ok(end) => end,
        Err(answer) => return answer,
    };
    ticks(state, n, |row| row.c);
    state.time = end;
    Answer::accepted(0)
}

/// The same replay, plainly: the waits alone tell how far the log reaches and which
/// numbers are used; those are looked at, and then so many ticks are run.
pub fn replay_plain(state: &mut State, n: u32, log: &[u32]) -> Replayed {
    if let Err(answer) = end_of_run(state, n) {
        return Replayed::refused(answer);
    }
    match reached(&state.row[..state.rows as usize], n, log) {
        Ok(reached) => {
            let mut numbers = log.iter().copied();
            // There are as many numbers as jobs that these ticks release.
            ticks(state, reached.ticks, |row| numbers.next().unwrap_or(row.c));
            state.time += reached.ticks;
            Replayed::accepted(reached.ticks, reached.used)
        }
        Err(place) => Replayed::refused(Answer::refused_at(refusal::LENGTH, place as u64)),
    }
}

/// How far a log reaches: the ticks before the stop, and the numbers they use.
struct Reached {
    ticks: u32,
    used: usize,
}

/// That, or the place of the first number among those used that is out of its range.
fn reached(rows: &[Row], n: u32, log: &[u32]) -> Result<Reached, usize> {
    let mut waits = [0; ROWS_MAX];
    for (wait, row) in waits.iter_mut().zip(rows) {
        *wait = row.wait;
    }
    let waits = &mut waits[..rows.len()];
    let mut used = 0;
    for ticks in 0..n {
        let due = waits.iter().filter(|&&wait| wait == 0).count();
        if due > log.len() - used {
            return Ok(Reached { ticks, used });
        }
        for (wait, row) in waits.iter_mut().zip(rows) {
            if *wait == 0 {
                if !(1..=row.c).contains(&log[used]) {
                    return Err(used);
                }
                used += 1;
                *wait = row.t;
            }
            *wait -= 1;
        }
    }
    Ok(Reached { ticks: n, used })
}

/// So many plain ticks, each released job with the work that is asked for; the clock
/// is the caller's.
#[inline]
fn ticks(state: &mut State, n: u32, mut work: impl FnMut(&Row) -> u32) {
    let rows = &mut state.row[..state.rows as usize];
    let patterns = patterns_of(rows);
    let mut idle = state.idle;
    for _ in 0..n {
        release_due(rows, &patterns, &mut work);
        let chosen = chosen_of(rows);
        work_and_settle(rows, chosen);
        idle += u32::from(chosen.is_none());
    }
    state.idle = idle;
}

/// Step 1 of a plain tick: "Every row with wait 0 releases its next job".
#[inline]
fn release_due(rows: &mut [Row], patterns: &[u64; ROWS_MAX], work: &mut impl FnMut(&Row) -> u32) {
    for (row, &pattern) in rows.iter_mut().zip(patterns) {
        if row.wait == 0 {
            let work = work(row);
            release(row, pattern, work);
        }
    }
}

/// Step 2 of a plain tick: "Among live jobs the mandatory one of the highest
/// row is chosen; if there is none, the optional one of the highest row".
#[inline]
fn chosen_of(rows: &[Row]) -> Option<usize> {
    let mut optional = None;
    for (at, row) in rows.iter().enumerate() {
        if row.is_live() {
            if row.kind == 1 {
                return Some(at);
            }
            optional = optional.or(Some(at));
        }
    }
    optional
}

/// Steps 3 and 4 of a plain tick: "The chosen job loses one unit of work", every
/// wait and the ticks left of every live job fall by one, and jobs are settled.
#[inline]
fn work_and_settle(rows: &mut [Row], chosen: Option<usize>) {
    for (at, row) in rows.iter_mut().enumerate() {
        row.wait -= 1;
        if row.is_live() {
            row.left -= 1;
            if chosen == Some(at) {
                row.work -= 1;
            }
            if row.work == 0 || row.left == 0 {
                settle(row);
            }
        }
    }
}
