//! The promises of a verdict, checked on what the dispatcher did.
//!
//! A trace says for each tick which row was chosen, or none. From it and the
//! table alone the fate of every job is worked out again: job a of a row is
//! released at tick a x T, lives for D ticks at most and needs C of the ticks
//! given to its row; its kind is its row's own pattern's. Then the promises are looked for in those fates.
//! Of a replay the jobs' lengths are given as well, and take the place of C.

mod replayed;

pub use replayed::judge_replay;

use crate::answer::{refusal, Answer};
use crate::brute::pattern::is_mandatory;
use crate::dispatch::{self, State};
use crate::table::{Table, TaskRow, ROWS_MAX};
use crate::verdict;

/// What became of a job by the end of a trace.
#[derive(Clone, Copy, Debug, PartialEq, Eq)]
pub enum Fate {
    /// Met, this many ticks after its release.
    Met(u32),
    Missed,
    Live,
}

/// For each tick the chosen row, and the state after the last.
pub struct Trace {
    pub chosen: Vec<Option<usize>>,
    pub state: State,
}

/// The dispatcher from fresh, watched for so many ticks. The trace is kept
/// whole, so its length is bounded by the memory there is.
pub fn trace(words: &[u32], ticks: u32) -> Result<Trace, Answer> {
    let mut state = dispatch::fresh(words)?;
    let mut chosen = Vec::new();
    let answer = dispatch::run_watched(&mut state, ticks, |row| chosen.push(row));
    if answer.is_accepted() {
        Ok(Trace { chosen, state })
    } else {
        Err(answer)
    }
}

/// The fates of one row's jobs in the order of their release, from the ticks
/// given to the row. A tick given to a row that has no live job is an error, and
/// so is a row without a period.
pub fn fates(task: &TaskRow, at: usize, chosen: &[Option<usize>]) -> Result<Vec<Fate>, String> {
    fates_of(task, at, chosen, |_| task.c)
}

/// The same of jobs that each have a length of their own.
fn fates_of(
    task: &TaskRow,
    at: usize,
    chosen: &[Option<usize>],
    length: impl Fn(usize) -> u32,
) -> Result<Vec<Fate>, String> {
    let (t, d) = (task.t as usize, task.d as usize);
    if t == 0 {
        return Err(format!("row {at}: no period"));
    }
    let mut fates = vec![Fate::Live; chosen.len().div_ceil(t)];
    for (job, fate) in fates.iter_mut().enumerate() {
        let (release, length) = (job * t, length(job));
        let mut units = 0;
        let ticks = chosen[release..].iter().take(t);
        for (since, _) in ticks.enumerate().filter(|(_, row)| **row == Some(at)) {
            if since >= d || units == length {
                return Err(format!("row {at}, job {job}: a tick given to no live job"));
            }
            units += 1;
            if units == length {
                *fate = Fate::Met(since as u32 + 1);
            }
        }
        // "A job with work left whose deadline is t + 1 is missed and dropped."
        if units < length && release + d <= chosen.len() {
            *fate = Fate::Missed;
        }
    }
    Ok(fates)
}

/// How much was looked at, so that a check cannot pass by looking at nothing.
#[derive(Clone, Copy, Debug, Default, PartialEq, Eq)]
pub struct Kept {
    pub admitted: bool,
    pub mandatory_jobs: u64,
    pub optional_jobs: u64,
    pub windows: u64,
}

/// Whether the promises hold on a run of at least so many ticks; always at
/// least until the first deadline of every row. The error says which does not,
/// or that the words are no table.
pub fn check(words: &[u32], ticks: u32) -> Result<Kept, String> {
    let table = Table::of(words).map_err(|answer| format!("no table: {answer:?}"))?;
    let longest = table.rows().iter().map(|row| row.d).max().unwrap_or(0);
    let trace = trace(words, ticks.max(longest)).map_err(|answer| format!("no run: {answer:?}"))?;
    let mut responses = [0; ROWS_MAX];
    let verdict = verdict::verdict(words, &mut responses);
    judge(&table, &trace, verdict, &responses)
}

/// Whether a trace, a verdict and its response times go together. The trace has
/// to reach the first deadline of every row.
pub fn judge(
    table: &Table,
    trace: &Trace,
    verdict: Answer,
    responses: &[u32; ROWS_MAX],
) -> Result<Kept, String> {
    let rows = table.rows();
    let mut all = Vec::with_capacity(rows.len());
    for (at, task) in rows.iter().enumerate() {
        let fates = fates(task, at, &trace.chosen)?;
        counts_agree(task, at, &fates, &trace.state)?;
        all.push(fates);
    }
    idle_agrees(trace)?;
    match verdict.refusal {
        0 => admitted(rows, &all, responses, trace.chosen.len()),
        refusal::UNSCHEDULABLE => unschedulable(rows, &all, verdict.value as usize),
        _ => Err(format!("no verdict: {verdict:?}")),
    }
}

/// "over any run the units of work taken from jobs plus the ticks added to idle
/// equal the ticks run": the ticks of the trace without a row are the idle ones.
fn idle_agrees(trace: &Trace) -> Result<(), String> {
    let idle = trace.chosen.iter().filter(|row| row.is_none()).count();
    if idle as u64 == u64::from(trace.state.idle) {
        Ok(())
    } else {
        Err(format!(
            "idle {idle} by the trace, not {}",
            trace.state.idle
        ))
    }
}

/// The state's counts are those of the fates: "The row counts released jobs,
/// mandatory met and missed, optional met and missed".
fn counts_agree(task: &TaskRow, at: usize, fates: &[Fate], state: &State) -> Result<(), String> {
    let mut counts = [0u32; 4];
    for (job, fate) in fates.iter().enumerate() {
        let optional = 2 * usize::from(!is_mandatory(task.pattern(), job as u32));
        match fate {
            Fate::Met(_) => counts[optional] += 1,
            Fate::Missed => counts[optional + 1] += 1,
            Fate::Live => (),
        }
    }
    let Some(row) = state.row.get(at) else {
        return Err(format!("row {at}: not in the state"));
    };
    let kept = [row.mm, row.mx, row.om, row.ox];
    if counts == kept && row.released as usize == fates.len() {
        Ok(())
    } else {
        Err(format!("row {at}: {counts:?} by the trace, not {kept:?}"))
    }
}

/// An admitted table: every row keeps its promises.
fn admitted(
    rows: &[TaskRow],
    all: &[Vec<Fate>],
    responses: &[u32],
    ticks: usize,
) -> Result<Kept, String> {
    let mut kept = Kept {
        admitted: true,
        ..Kept::default()
    };
    for (at, ((task, fates), response)) in rows.iter().zip(all).zip(responses).enumerate() {
        if fates.first() != Some(&Fate::Met(*response)) {
            return Err(format!("row {at}: job 0 does not take {response} ticks"));
        }
        row_keeps(task, fates, (*response, ticks), &mut kept)
            .map_err(|e| format!("row {at}: {e}"))?;
    }
    Ok(kept)
}

/// The promises of one row over so many ticks, its response time as an upper bound.
fn row_keeps(
    task: &TaskRow,
    fates: &[Fate],
    (response, ticks): (u32, usize),
    kept: &mut Kept,
) -> Result<(), String> {
    mandatory_in_time(task, fates, (response, ticks), kept)?;
    windows_hold(task, fates, kept)
}

/// Every mandatory job is met by its deadline and within the response time; one
/// still live at the end has not yet outlived that time.
fn mandatory_in_time(
    task: &TaskRow,
    fates: &[Fate],
    (response, ticks): (u32, usize),
    kept: &mut Kept,
) -> Result<(), String> {
    for (job, fate) in fates.iter().enumerate() {
        if !is_mandatory(task.pattern(), job as u32) {
            kept.optional_jobs += 1;
            continue;
        }
        match fate {
            Fate::Met(taken) if *taken <= response && *taken <= task.d => kept.mandatory_jobs += 1,
            Fate::Live if ticks - job * (task.t as usize) < response as usize => (),
            _ => {
                return Err(format!(
                    "mandatory job {job}: {fate:?}, response {response}"
                ))
            }
        }
    }
    Ok(())
}

/// Any k jobs in a row include m met.
fn windows_hold(task: &TaskRow, fates: &[Fate], kept: &mut Kept) -> Result<(), String> {
    let settled: Vec<&Fate> = fates.iter().filter(|fate| **fate != Fate::Live).collect();
    for (first, window) in settled.windows(task.k as usize).enumerate() {
        let met = window.iter().filter(|fate| matches!(fate, Fate::Met(_)));
        if met.count() < task.m as usize {
            return Err(format!("fewer than m met among k jobs from job {first}"));
        }
        kept.windows += 1;
    }
    Ok(())
}

/// A table turned down at a row: job 0 of every row above it is met in time, and
/// job 0 of that row misses its deadline.
fn unschedulable(rows: &[TaskRow], all: &[Vec<Fate>], at: usize) -> Result<Kept, String> {
    for (above, (task, fates)) in rows.iter().zip(all).take(at).enumerate() {
        match fates.first() {
            Some(Fate::Met(ticks)) if *ticks <= task.d => (),
            other => return Err(format!("row {above}, above the named one: job 0 {other:?}")),
        }
    }
    match all.get(at).and_then(|fates| fates.first()) {
        Some(Fate::Missed) => Ok(Kept {
            mandatory_jobs: at as u64 + 1,
            ..Kept::default()
        }),
        other => Err(format!("row {at}, the named one: job 0 {other:?}")),
    }
}
