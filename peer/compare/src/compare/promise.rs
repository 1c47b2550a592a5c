//! Demand 3 on the first program alone: its verdict and its response times laid
//! beside what its own dispatcher does, tick by tick.
//!
//! The trace is read off the states that it hands back. What the trace must show
//! is judged by the second program's promises; the tables are mixed.

mod traced;

pub(super) use traced::{stepped, Lengths};

use peer::answer::{refusal, Answer};
use peer::gen::{loaded_table, tiny_table};
use peer::pattern::RED;
use peer::promise::{judge, Kept};
use peer::rng::Rng;
use peer::table::{Table, TaskRow, ROWS_MAX};

use super::Comparison;
use crate::course::{shown, Compared, Course, Difference};
use crate::draw::{apart, limit_pair, short_cycle_pair, LimitPair, Shape};
use crate::ffi;
use traced::traced;

pub const ALL: &[Comparison] = &[
    Comparison::drawn("promise_cycles", &[0, 11], cycles),
    Comparison::drawn("promise_drawn", &[0, 11], drawn),
    Comparison::drawn("promise_limit", &[0, 11], limit),
    Comparison::drawn("promise_large", &[0, 11], large),
];

/// Pairs of tables with short cycles.
const CYCLES: u32 = 1_200;

/// Whole cycles that an admitted table is run for, where they are this short.
const TIMES: u32 = 3;
const CYCLE_MAX: u64 = 4 * 576;

/// Tables drawn near full load, and tiny ones.
const DRAWN: u32 = 2_000;

/// Pairs on both sides of the limit.
const LIMITS: u32 = 500;

/// Pairs with periods of thousands of ticks.
const LARGE: u32 = 10;

/// Ticks that an admitted table is run for where its cycle is long.
const TICKS: u32 = 1_000;

/// What was looked at in all tables together.
#[derive(Debug, Default)]
pub(super) struct Seen {
    pub(super) kept: Kept,
    /// Tables turned down, and admitted ones, with a deeply-red row whose even pattern
    /// is another.
    pub(super) red: [u32; 2],
}

impl Seen {
    pub(super) fn add(&mut self, kept: Kept, rows: &[TaskRow]) {
        self.kept.mandatory_jobs += kept.mandatory_jobs;
        self.kept.optional_jobs += kept.optional_jobs;
        self.kept.windows += kept.windows;
        let red = |row: &TaskRow| row.p == RED && apart(row.m, row.k);
        self.red[usize::from(kept.admitted)] += u32::from(rows.iter().any(red));
    }
}

/// One table: the verdict, the trace, and whether they go together. The case is
/// counted under the verdict, and what was looked at is added up.
fn same_promise(course: &mut Course, words: &[u32], all: &mut Seen) -> Compared {
    let mut responses = [0; ROWS_MAX];
    let verdict = ffi::verdict(words, &mut responses);
    match kept(words, verdict, &responses) {
        Ok((kept, table)) => {
            all.add(kept, table.rows());
            course.settle(verdict, true, String::new)
        }
        Err(fault) => course.settle(verdict, false, || {
            let verdict = shown(verdict);
            format!("{fault}\nverdict {verdict} responses {responses:?}\ntable {words:?}")
        }),
    }
}

/// A comparison that looked at no job of one kind, at no whole window, or at no
/// deeply-red row, says nothing about them.
fn looked_at(all: &Seen) -> Compared {
    let Seen { kept, red } = all;
    let jobs = kept.mandatory_jobs > 0 && kept.optional_jobs > 0;
    if jobs && kept.windows > 0 && !red.contains(&0) {
        return Ok(());
    }
    Err(Difference(format!("too little was looked at: {all:?}")))
}

fn kept(
    words: &[u32],
    verdict: Answer,
    responses: &[u32; ROWS_MAX],
) -> Result<(Kept, Table), String> {
    let table = Table::of(words).map_err(|answer| format!("no table: {}", shown(answer)))?;
    let ticks = ticks_for(table.rows(), verdict);
    let trace = traced(words, ticks, verdict.is_accepted())?;
    let kept = judge(&table, &trace, verdict, responses)?;
    match kept.mandatory_jobs {
        0 => Err("no mandatory job was looked at".to_string()),
        _ => Ok((kept, table)),
    }
}

/// To the first deadline of every row at least. A table turned down is run no
/// further than that; an admitted one for whole cycles, or for some time.
pub(super) fn ticks_for(rows: &[TaskRow], verdict: Answer) -> u32 {
    let longest = rows.iter().map(|row| row.d).max().unwrap_or(0);
    if verdict.refusal == refusal::UNSCHEDULABLE {
        return longest;
    }
    let ticks = cycle(rows).map_or(TICKS, |cycle| TIMES * cycle);
    longest.max(ticks)
}

/// The ticks after which all patterns and periods begin again together: the
/// least common multiple of all k x T, if it is short.
fn cycle(rows: &[TaskRow]) -> Option<u32> {
    let cycle = rows.iter().try_fold(1, |cycle, row| {
        let own = u64::from(row.k) * u64::from(row.t);
        let joint = cycle / common_divisor(cycle, own) * own;
        (joint <= CYCLE_MAX).then_some(joint)
    });
    cycle.map(|cycle| cycle as u32)
}

fn common_divisor(mut a: u64, mut b: u64) -> u64 {
    while b != 0 {
        (a, b) = (b, a % b);
    }
    a
}

/// Both tables of a pair.
fn same_pair(course: &mut Course, pair: &LimitPair, all: &mut Seen) -> Compared {
    same_promise(course, &pair.within, all)?;
    same_promise(course, &pair.past, all)
}

/// Admitted tables over several whole cycles, and the tables just past them.
fn cycles(course: &mut Course) -> Compared {
    let mut all = Seen::default();
    for _ in 0..CYCLES {
        let rows = 1 + course.rng.index(4);
        let pair = short_cycle_pair(&mut course.rng, rows);
        same_pair(course, &pair, &mut all)?;
    }
    looked_at(&all)
}

/// A table near full load, or a tiny one.
pub(super) fn drawn_table(rng: &mut Rng) -> Vec<u32> {
    match rng.below(4) {
        0 => tiny_table(rng),
        _ => loaded_table(rng),
    }
}

/// A table that one unit of work more makes unschedulable, and the one with it;
/// few rows and short periods, so that long patterns come round.
pub(super) fn drawn_limit(rng: &mut Rng) -> LimitPair {
    let (few, any) = (1 + rng.index(4), 1 + rng.index(ROWS_MAX));
    let rows = if rng.once_in(8) { any } else { few };
    let shape = Shape {
        rows,
        t_low: 4 * rows as u32,
        t_high: 8 * rows as u32,
    };
    limit_pair(rng, shape)
}

/// Tables near full load, and tiny ones.
fn drawn(course: &mut Course) -> Compared {
    let mut all = Seen::default();
    for _ in 0..DRAWN {
        let words = drawn_table(&mut course.rng);
        same_promise(course, &words, &mut all)?;
    }
    looked_at(&all)
}

/// Tables that one unit of work more makes unschedulable, and those with it.
fn limit(course: &mut Course) -> Compared {
    let mut all = Seen::default();
    for _ in 0..LIMITS {
        let pair = drawn_limit(&mut course.rng);
        same_pair(course, &pair, &mut all)?;
    }
    looked_at(&all)
}

/// Response times and deadlines of thousands of ticks.
fn large(course: &mut Course) -> Compared {
    for _ in 0..LARGE {
        let shape = Shape {
            rows: 1 + course.rng.index(3),
            t_low: 200,
            t_high: 60_000,
        };
        let pair = limit_pair(&mut course.rng, shape);
        same_pair(course, &pair, &mut Seen::default())?;
    }
    Ok(())
}
