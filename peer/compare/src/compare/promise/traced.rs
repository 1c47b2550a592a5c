//! What the first program's dispatcher did, read off the states that it hands back.

use peer::answer::Answer;
use peer::dispatch::{from_words, Row, State, STATE_WORDS};
use peer::promise::Trace;
use peer::table::ROWS_MAX;

use super::super::held::kept_true;
use crate::course::shown;
use crate::ffi;

/// The work of the job that each row releases, if it releases one.
pub type Lengths = [u32; ROWS_MAX];

/// The first program's dispatcher from fresh: the row that was given each tick,
/// and the last state. In every state the number of met marks must be that of the
/// window; of an admitted table every state is looked at further.
pub fn traced(words: &[u32], ticks: u32, admitted: bool) -> Result<Trace, String> {
    stepped(words, ticks, admitted, |before, saved| {
        (ffi::tick(saved), before.row.map(|row| row.c))
    })
}

/// The same where each tick is made by `step`, from the state before it, which says as
/// well what the work of the jobs released in it was.
pub fn stepped(
    words: &[u32],
    ticks: u32,
    admitted: bool,
    mut step: impl FnMut(&State, &mut [u64; STATE_WORDS]) -> (Answer, Lengths),
) -> Result<Trace, String> {
    let mut saved = [0; STATE_WORDS];
    let answer = ffi::fresh(words, &mut saved);
    let mut state = read(answer, &saved)?;
    let mut chosen = Vec::with_capacity(ticks as usize);
    for tick in 0..ticks {
        let (answer, lengths) = step(&state, &mut saved);
        let after = read(answer, &saved)?;
        let at_tick = |fault| format!("tick {tick}: {fault}");
        kept_true(&saved).map_err(at_tick)?;
        chosen.push(given(&state, &after, &lengths).map_err(at_tick)?);
        if admitted {
            unbroken(&after).map_err(at_tick)?;
        }
        state = after;
    }
    Ok(Trace { chosen, state })
}

fn read(answer: Answer, saved: &[u64]) -> Result<State, String> {
    if !answer.is_accepted() {
        return Err(format!("no state: {}", shown(answer)));
    }
    from_words(saved).ok_or_else(|| "a word too large for its field".to_string())
}

/// What one tick did to one row's job.
enum Change {
    /// It lost a unit of work.
    Worked,
    /// It lost none, or there is no job.
    Rested,
    /// It was missed with work left, so that a unit lost does not show.
    Dropped,
}

/// The change, from the counts and the work left before and after. The job at
/// work is the one live before, or the one of this length that wait 0 releases.
fn change(before: &Row, after: &Row, length: u32) -> Option<Change> {
    let work = if before.wait == 0 {
        length
    } else {
        before.work
    };
    let grown = |count: fn(&Row) -> u32| count(after).checked_sub(count(before));
    let met = grown(|row| row.mm)? + grown(|row| row.om)?;
    let missed = grown(|row| row.mx)? + grown(|row| row.ox)?;
    match (met, missed, work.checked_sub(after.work)?) {
        (0, 0, 0) => Some(Change::Rested),
        (0, 0, 1) if work > 1 => Some(Change::Worked),
        (1, 0, 1) if work == 1 => Some(Change::Worked),
        (0, 1, lost) if lost == work && work == 1 => Some(Change::Rested),
        (0, 1, lost) if lost == work && work > 1 => Some(Change::Dropped),
        _ => None,
    }
}

/// The row that was given the tick, or none when it was idle: "the units of work
/// taken from jobs plus the ticks added to idle equal the ticks run".
///
/// Where no unit is seen lost and the tick was not idle, it went to a job that
/// was dropped. Which of them does not matter: it is missed all the same.
fn given(before: &State, after: &State, lengths: &Lengths) -> Result<Option<usize>, String> {
    if after.time.checked_sub(before.time) != Some(1) {
        return Err(format!("time {} after time {}", after.time, before.time));
    }
    let (mut worked, mut dropped) = (Vec::new(), Vec::new());
    let rows = before.row.iter().zip(&after.row).enumerate();
    for (at, (before, after)) in rows.take(before.rows as usize) {
        match change(before, after, lengths[at]) {
            Some(Change::Worked) => worked.push(at),
            Some(Change::Dropped) => dropped.push(at),
            Some(Change::Rested) => (),
            None => return Err(format!("row {at} from {before:?} to {after:?}")),
        }
    }
    let idle = after.idle.checked_sub(before.idle);
    match (idle, worked.len(), dropped.first()) {
        (Some(1), 0, _) => Ok(None),
        (Some(0), 1, _) => Ok(worked.first().copied()),
        (Some(0), 0, Some(&row)) => Ok(Some(row)),
        _ => Err(format!("idle by {idle:?}, work taken from rows {worked:?}")),
    }
}

/// What a user sees of an admitted table: mandatory missed and broken stay 0,
/// and each window holds at least m met marks.
fn unbroken(state: &State) -> Result<(), String> {
    let rows = state.row.iter().take(state.rows as usize);
    let kept = |row: &Row| row.mx == 0 && row.broken == 0 && row.window.count_ones() >= row.m;
    match rows.enumerate().find(|(_, row)| !kept(row)) {
        Some((at, row)) => Err(format!("row {at}: {row:?}")),
        None => Ok(()),
    }
}
