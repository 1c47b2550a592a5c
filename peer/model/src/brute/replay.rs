//! A replay by its sentences (document 02, 5/14), on the words of a saved state. All
//! releases are listed first, by the waits alone; the stop and the fault are read off
//! that list; then single ticks are run, each released job's length laid in place of its
//! row's C for the tick in which it is released.

use std::collections::HashMap;

use crate::answer::{refusal, Answer};
use crate::dispatch::{from_words, run_plain, to_words, well_formed_words};
use crate::dispatch::{Replayed, CLOCK_END, HEAD_WORDS, SAVED_ROW_WORDS};
use crate::table::ROWS_MAX;

/// Places of a saved row's words.
const C: usize = 1;
const T: usize = 2;
const WAIT: usize = 7;

/// The release of one job.
#[derive(Clone, Copy, Debug, PartialEq, Eq)]
pub struct Release {
    /// Counted from the replay's first tick.
    pub tick: u32,
    pub row: usize,
    /// C of the row, the most that the job's number may be.
    pub c: u32,
}

/// The rows of a saved state.
fn rows_of(words: &[u64]) -> impl Iterator<Item = &[u64]> {
    let rows = words.first().map_or(0, |&rows| rows as usize);
    let saved = words.get(HEAD_WORDS..).unwrap_or_default();
    saved.chunks_exact(SAVED_ROW_WORDS).take(rows.min(ROWS_MAX))
}

/// "in order of release (by tick, then by row)": every release of so many ticks. The
/// list ends sooner with the tick in which it grows longer than `enough`, and is empty
/// where a row has no period.
pub fn releases(words: &[u64], ticks: u32, enough: usize) -> Vec<Release> {
    let mut waits: Vec<u64> = rows_of(words).map(|row| row[WAIT]).collect();
    let mut listed = Vec::new();
    let periods = rows_of(words).all(|row| row[T] > 0);
    for tick in (0..ticks).take_while(|_| periods) {
        if listed.len() > enough {
            break;
        }
        for (row, (wait, saved)) in waits.iter_mut().zip(rows_of(words)).enumerate() {
            if *wait == 0 {
                let c = saved[C] as u32;
                listed.push(Release { tick, row, c });
                *wait = saved[T];
            }
            *wait -= 1;
        }
    }
    listed
}

/// What a list of releases and a log say of a replay of n ticks.
pub struct Read {
    /// The ticks before the stop, and the numbers that their releases use.
    pub done: u32,
    pub used: usize,
    /// The place of the first number out of range among those.
    pub fault: Option<usize>,
}

/// "It stops before the first tick that releases more jobs than the log has left": the
/// tick of the first release for which there is no number. The list must reach that far.
pub fn read(listed: &[Release], n: u32, log: &[u32]) -> Read {
    let without = listed.get(log.len());
    let done = without.map_or(n, |release| release.tick);
    let before = listed.iter().filter(|release| release.tick < done);
    let used = before.clone().count();
    let out_of_range = |(release, number): (&Release, &u32)| *number < 1 || *number > release.c;
    let fault = before.zip(log).position(out_of_range);
    Read { done, used, fault }
}

/// The replay: 14, 15, 18, or the state after the ticks done.
pub fn replay(words: &mut [u64], n: u32, log: &[u32]) -> Replayed {
    let refused = |answer| Replayed { answer, used: 0 };
    if !well_formed_words(words).is_accepted() {
        return refused(Answer::refused(refusal::STATE));
    }
    if words[1] + u64::from(n) > u64::from(CLOCK_END) {
        return refused(Answer::refused(refusal::CLOCK));
    }
    let listed = releases(words, n, log.len());
    let Read { done, used, fault } = read(&listed, n, log);
    if let Some(place) = fault {
        return refused(Answer::refused_at(refusal::LENGTH, place as u64));
    }
    let of_jobs = listed.iter().zip(log);
    let lengths = of_jobs.map(|(job, &length)| ((job.tick, job.row), length));
    let lengths: HashMap<(u32, usize), u32> = lengths.collect();
    for tick in 0..done {
        one_tick(words, |row| lengths.get(&(tick, row)).copied());
    }
    Replayed {
        answer: Answer::accepted(done.into()),
        used: used as u64,
    }
}

/// One plain tick in which the rows that release a job have its length for their C.
/// They have no live job before it, so that such a C is never less than their work.
fn one_tick(words: &mut [u64], length: impl Fn(usize) -> Option<u32>) {
    let Some(mut state) = from_words(words) else {
        return;
    };
    let costs = state.row.map(|row| row.c);
    for (at, row) in state.row.iter_mut().enumerate() {
        row.c = length(at).unwrap_or(row.c);
    }
    run_plain(&mut state, 1);
    for (row, c) in state.row.iter_mut().zip(costs) {
        row.c = c;
    }
    words.copy_from_slice(&to_words(&state));
}
