//! Logs of a million numbers, and a fault as the last number that is used: it is told
//! late, when every word of the state has long been another.

use peer::brute::replay::{releases, Release};
use peer::dispatch::{fresh_words, run_words, STATE_WORDS};
use peer::gen::{log, no_length};
use peer::rng::Rng;
use peer::table::{ROWS_MAX, ROW_WORDS};

use super::{due_replay, room, same_replay};
use crate::course::{Compared, Course};
use crate::draw::sound;

/// Tables, and the numbers of a log.
const TABLES: u32 = 5;
const NUMBERS: usize = 1_000_000;

/// Rows of short periods, so that so many jobs do not take long: of one row, of all, and
/// of a drawn number.
fn begun(rng: &mut Rng, turn: u32) -> Vec<u64> {
    let rows = match turn {
        0 => 1,
        1 => ROWS_MAX,
        _ => 1 + rng.index(ROWS_MAX),
    };
    let mut table = sound(rng, rows, 3);
    for row in table.chunks_exact_mut(ROW_WORDS).step_by(2) {
        row[1] = rng.word(1, 60_000);
    }
    let mut words = vec![0; STATE_WORDS];
    fresh_words(&table, &mut words);
    run_words(&mut words, turn * 7);
    words
}

pub fn all(course: &mut Course) -> Compared {
    for turn in 0..TABLES {
        let words = begun(&mut course.rng, turn);
        // To the tick in which the log would end at the latest.
        let mut jobs = releases(&words, room(&words), NUMBERS);
        let last = jobs.last().map_or(0, |job| job.tick);
        jobs.retain(|job| job.tick < last);
        let numbers = log(&mut course.rng, &jobs);
        let used = jobs.len() as u64;
        let whole = (0, u64::from(last), used);
        due_replay(course, &words, last, &numbers, whole)?;
        due_replay(course, &words, room(&words), &numbers, whole)?;
        faulty(course, &words, last, (&jobs, &numbers))?;
        let short = &numbers[..numbers.len() - 1];
        same_replay(course, &words, last, short)?;
    }
    Ok(())
}

/// The last number out of range, the first, both, and any; then the last where no tick
/// uses it.
fn faulty(
    course: &mut Course,
    words: &[u64],
    ticks: u32,
    (jobs, numbers): (&[Release], &[u32]),
) -> Compared {
    let (last, any) = (jobs.len() - 1, course.rng.index(jobs.len()));
    for places in [&[last][..], &[0], &[0, last], &[any]] {
        let mut log = numbers.to_vec();
        for &place in places {
            log[place] = no_length(&mut course.rng, jobs[place].c);
        }
        due_replay(course, words, ticks, &log, (18, places[0] as u64, 0))?;
    }
    let before = jobs[last].tick;
    let used = jobs.partition_point(|job| job.tick < before);
    let mut log = numbers.to_vec();
    log[used..].fill(0);
    due_replay(course, words, before, &log, (0, before.into(), used as u64))
}
