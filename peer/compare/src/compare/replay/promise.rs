//! "For an admitted table demand 3 holds here too, response time as an upper bound": the
//! first program's verdict laid beside what its own replays do, tick by tick.

use peer::answer::Answer;
use peer::brute::replay::{releases, Release};
use peer::dispatch::{State, STATE_WORDS};
use peer::gen::log;
use peer::promise::{judge_replay, Kept, Trace};
use peer::table::{Table, ROWS_MAX};

use super::super::promise::{drawn_limit, drawn_table, stepped, ticks_for, Lengths, Seen};
use super::{log_shown, replayed_shown};
use crate::course::{shown, Compared, Course, Difference};
use crate::draw::short_cycle_pair;
use crate::ffi;

/// Tables with short cycles, drawn near full load, and at their limit.
const CYCLES: u32 = 500;
const DRAWN: u32 = 1_500;
const LIMITS: u32 = 300;

/// A fresh state and the jobs that it releases in so many ticks.
fn fresh(words: &[u32], ticks: u32) -> Result<([u64; STATE_WORDS], Vec<Release>), String> {
    let mut saved = [0; STATE_WORDS];
    let answer = ffi::fresh(words, &mut saved);
    match answer.is_accepted() {
        true => Ok((saved, releases(&saved, ticks, usize::MAX))),
        false => Err(format!("no state: {}", shown(answer))),
    }
}

/// The lengths of the rows that release a job in this tick, from the rest of the log.
fn of_tick(before: &State, rest: &[u32]) -> Lengths {
    let mut lengths = [0; ROWS_MAX];
    let due = before.row.iter().take(before.rows as usize).enumerate();
    let due = due.filter(|(_, row)| row.wait == 0);
    for ((at, _), number) in due.zip(rest) {
        lengths[at] = *number;
    }
    lengths
}

/// The trace of replays of a single tick each. Every one of them must be done, with as
/// many numbers as it releases jobs.
fn traced(words: &[u32], ticks: u32, numbers: &[u32]) -> Result<Trace, String> {
    let mut rest = numbers;
    let trace = stepped(words, ticks, true, |before, saved| {
        let lengths = of_tick(before, rest);
        let replayed = ffi::replay(saved, 1, rest);
        rest = rest.get(replayed.used as usize..).unwrap_or_default();
        let done = replayed.answer == Answer::accepted(1);
        let answer = match done {
            true => Answer::accepted(0),
            false => Answer::refused(replayed.answer.refusal.max(1)),
        };
        (answer, lengths)
    })?;
    match rest.is_empty() {
        true => Ok(trace),
        false => Err(format!("{} numbers were not used", rest.len())),
    }
}

/// One admitted table with one log: the promises in the trace, and the same state by one
/// replay of all ticks.
fn kept(
    table: &Table,
    words: &[u32],
    numbers: &[u32],
    (ticks, jobs): (u32, &[Release]),
    responses: &[u32; ROWS_MAX],
) -> Result<Kept, String> {
    let trace = traced(words, ticks, numbers)?;
    let mut lengths = vec![Vec::new(); table.rows().len()];
    for (job, number) in jobs.iter().zip(numbers) {
        lengths[job.row].push(*number);
    }
    let kept = judge_replay(table, &trace, &lengths, responses)?;
    let (mut saved, _) = fresh(words, 0)?;
    let replayed = ffi::replay(&mut saved, ticks, numbers);
    let due = (Answer::accepted(ticks.into()), numbers.len() as u64);
    if (replayed.answer, replayed.used) != due {
        return Err(format!("at once: {}", replayed_shown(replayed)));
    }
    if saved != peer::dispatch::to_words(&trace.state) {
        return Err("another state at once than tick by tick".to_string());
    }
    Ok(kept)
}

/// A table that the first program admits, with a drawn log; others are passed over.
fn same_promise(course: &mut Course, words: &[u32], all: &mut Seen) -> Compared {
    let mut responses = [0; ROWS_MAX];
    let verdict = ffi::verdict(words, &mut responses);
    if !verdict.is_accepted() {
        return Ok(());
    }
    let table = Table::of(words).map_err(|answer| Difference(shown(answer)))?;
    let ticks = ticks_for(table.rows(), verdict);
    let (_, jobs) = fresh(words, ticks).map_err(Difference)?;
    let numbers = log(&mut course.rng, &jobs);
    match kept(&table, words, &numbers, (ticks, &jobs), &responses) {
        Ok(kept) => {
            all.add(kept, table.rows());
            course.settle(Answer::accepted(0), true, String::new)
        }
        Err(fault) => course.settle(Answer::accepted(0), false, || {
            let log = log_shown(&numbers);
            format!("{fault}\nresponses {responses:?}\ntable {words:?}\n{log}")
        }),
    }
}

/// A comparison that looked at no job of one kind, at no whole window, or at no
/// deeply-red row, says nothing about them.
fn looked_at(all: &Seen) -> Compared {
    let Seen { kept, red } = all;
    let jobs = kept.mandatory_jobs > 5_000 && kept.optional_jobs > 5_000;
    match jobs && kept.windows > 5_000 && red[1] > 20 {
        true => Ok(()),
        false => Err(Difference(format!("too little was looked at: {all:?}"))),
    }
}

/// Over several whole cycles.
pub fn cycles(course: &mut Course) -> Compared {
    let mut all = Seen::default();
    for _ in 0..CYCLES {
        let rows = 1 + course.rng.index(4);
        let words = short_cycle_pair(&mut course.rng, rows).within;
        same_promise(course, &words, &mut all)?;
    }
    looked_at(&all)
}

/// Tables near full load, and tiny ones.
pub fn drawn(course: &mut Course) -> Compared {
    let mut all = Seen::default();
    for _ in 0..DRAWN {
        let words = drawn_table(&mut course.rng);
        same_promise(course, &words, &mut all)?;
    }
    looked_at(&all)
}

/// Tables that one unit of work more makes unschedulable.
pub fn limit(course: &mut Course) -> Compared {
    let mut all = Seen::default();
    for _ in 0..LIMITS {
        let words = drawn_limit(&mut course.rng).within;
        same_promise(course, &words, &mut all)?;
    }
    looked_at(&all)
}
