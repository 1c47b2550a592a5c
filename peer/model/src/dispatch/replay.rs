//! Document 02, 5/14: "Run with measured job lengths."

use super::bits::{each, Bits};
use super::run::one_tick;
use super::steps::{end_of_run, patterns_of};
use super::{Row, State};
use crate::answer::{refusal, Answer};

/// "reports ticks done and numbers used": the ticks are the value of an accepted
/// answer. A refused replay has used none.
#[derive(Clone, Copy, Debug, PartialEq, Eq)]
pub struct Replayed {
    pub answer: Answer,
    pub used: u64,
}

impl Replayed {
    pub(super) fn accepted(ticks: u32, used: usize) -> Replayed {
        Replayed {
            answer: Answer::accepted(ticks.into()),
            used: used as u64,
        }
    }

    pub(super) fn refused(answer: Answer) -> Replayed {
        Replayed { answer, used: 0 }
    }
}

/// "A replay takes the log, one number per released job in order of release (by
/// tick, then by row), each 1 to that row's C, and runs the same dispatcher with that
/// work in place of C. It stops before the first tick that releases more jobs than
/// the log has left". "Refusals: 14, 15, then 18 .. the state is the one given."
pub fn replay(state: &mut State, n: u32, log: &[u32]) -> Replayed {
    replay_watched(state, n, log, |_| ())
}

/// The same replay, and at every tick the chosen row is shown to `watch`, or `None`
/// when the tick is idle; also at those before a number that is refused.
pub fn replay_watched(
    state: &mut State,
    n: u32,
    log: &[u32],
    watch: impl FnMut(Option<usize>),
) -> Replayed {
    if let Err(answer) = end_of_run(state, n) {
        return Replayed::refused(answer);
    }
    // A number may be refused when many ticks are done: they are done to a copy.
    let mut ahead = state.clone();
    match ticks(&mut ahead, n, log, watch) {
        Ok(replayed) => {
            *state = ahead;
            replayed
        }
        Err(place) => Replayed::refused(Answer::refused_at(refusal::LENGTH, place as u64)),
    }
}

/// The ticks up to the stop, or the place of a number that is out of its range.
fn ticks(
    state: &mut State,
    n: u32,
    log: &[u32],
    mut watch: impl FnMut(Option<usize>),
) -> Result<Replayed, usize> {
    let rows = &mut state.row[..state.rows as usize];
    let patterns = patterns_of(rows);
    let mut bits = Bits::of(rows);
    let (mut done, mut idle, mut left) = (0, state.idle, log);
    while done < n {
        let Some((numbers, rest)) = left.split_at_checked(bits.due.count_ones() as usize) else {
            break;
        };
        if let Some(fault) = out_of_range(rows, bits.due, numbers) {
            return Err(log.len() - left.len() + fault);
        }
        let mut numbers = numbers.iter().copied();
        // There are as many numbers as rows that are due.
        let chosen = one_tick(rows, &patterns, &mut bits, |row| {
            numbers.next().unwrap_or(row.c)
        });
        watch(chosen);
        idle += u32::from(chosen.is_none());
        done += 1;
        left = rest;
    }
    state.idle = idle;
    state.time += done;
    Ok(Replayed::accepted(done, log.len() - left.len()))
}

/// The first of one tick's numbers that is not "1 to that row's C".
#[inline]
fn out_of_range(rows: &[Row], due: u32, numbers: &[u32]) -> Option<usize> {
    let mut of_rows = each(due).zip(numbers);
    of_rows.position(|(at, number)| !(1..=rows[at].c).contains(number))
}
