//! 18, "the first number out of range that a release before the stop would use, with its
//! place from 0", and numbers out of range that none would use.

use peer::answer::refusal;
use peer::brute::replay::{releases, Release};
use peer::dispatch::{well_formed_words, CLOCK_END, STATE_WORDS};
use peer::gen::{log, no_length, scrambled_state, state};
use peer::rng::Rng;

use super::{due_replay, enough, full, room, same_replay, same_words, start};
use crate::course::{Compared, Course};

/// States whose logs have a fault at every place in turn, and the most numbers of one.
const PLACES: u32 = 450;
const NUMBERS: usize = 40;

/// The most ticks of each.
const TICKS: u32 = 400;

/// States whose faults are past the stop.
const PAST: u32 = 3_000;

/// States with several reasons for a refusal.
const ORDERS: u32 = 4_000;

/// Numbers out of the range of a job: the ones next to it, the last, any.
fn faults(rng: &mut Rng, c: u32) -> [u32; 4] {
    [0, c + 1, u32::MAX, no_length(rng, c)]
}

/// Ticks, the jobs of a state in them and mostly in some ticks more, and a log that is
/// sound: as long as they are, or shorter by one or a few.
fn sound(rng: &mut Rng, words: &[u64]) -> (u32, Vec<Release>, Vec<u32>) {
    let n = rng.word(0, TICKS).min(room(words));
    let jobs = releases(words, n + rng.word(0, 20).min(room(words) - n), NUMBERS);
    let mut numbers = log(rng, &jobs);
    let cut = match rng.below(4) {
        0 | 1 => jobs.len().saturating_sub(NUMBERS),
        2 => 1,
        _ => rng.index(6),
    };
    numbers.truncate(jobs.len().saturating_sub(cut));
    (n, jobs, numbers)
}

/// Each place of a log in turn out of range, the numbers behind it sound, and then out
/// of range as well: told with its place where the job is released before the stop,
/// accepted as before where it is not.
pub fn places(course: &mut Course) -> Compared {
    let mut passed = 0;
    for _ in 0..PLACES {
        let words = start(&mut course.rng);
        let (n, jobs, numbers) = sound(&mut course.rng, &words);
        let (accepted, _) = same_replay(course, &words, n, &numbers)?;
        let (done, used) = (accepted.answer.value, accepted.used);
        for (place, job) in jobs.iter().enumerate().take(numbers.len()) {
            let due = match u64::from(job.tick) < done {
                true => (18, place as u64, 0),
                false => (0, done, used),
            };
            passed += u32::from(due.0 == 0);
            for fault in faults(&mut course.rng, job.c) {
                let mut faulty = numbers.clone();
                faulty[place] = fault;
                due_replay(course, &words, n, &faulty, due)?;
                faulty[place..].fill(fault);
                due_replay(course, &words, n, &faulty, due)?;
            }
        }
    }
    enough(passed, 100, "numbers past the stop")
}

/// The places of the jobs of one tick: from the first to the one after the last.
fn of_tick(jobs: &[Release], tick: u32) -> (usize, usize) {
    let before = jobs.partition_point(|job| job.tick < tick);
    let after = jobs.partition_point(|job| job.tick <= tick);
    (before, after)
}

/// Every number from a tick's on out of range: the replay stops before that tick if it is
/// asked to, or if there is a number too few for that tick's jobs, however many there
/// are. The state is that of the sound log.
pub fn past_stop(course: &mut Course) -> Compared {
    let mut parted = 0;
    for _ in 0..PAST {
        let words = start(&mut course.rng);
        let n = course.rng.word(1, TICKS).min(room(&words));
        let jobs = releases(&words, n, NUMBERS);
        let numbers = log(&mut course.rng, &jobs);
        let Some(job) = jobs.get(course.rng.index(jobs.len())) else {
            continue;
        };
        let (first, end) = of_tick(&jobs, job.tick);
        let due = (0, job.tick.into(), first as u64);
        let (_, clean) = same_replay(course, &words, job.tick, &numbers[..first])?;
        let mut faulty = numbers.clone();
        for (number, job) in faulty.iter_mut().zip(&jobs).skip(first) {
            *number = no_length(&mut course.rng, job.c);
        }
        due_replay(course, &words, job.tick, &faulty, due)?;
        for length in first..end {
            parted += u32::from(length > first);
            due_replay(course, &words, n, &faulty[..length], due)?;
            let (_, both) = same_replay(course, &words, n, &faulty[..length])?;
            same_words(
                course,
                &both,
                &clean,
                "with faults past the stop, and without",
            )?;
        }
    }
    enough(
        parted,
        2_000,
        "logs with too few numbers for a tick, but some",
    )
}

/// Several refusals at once: 14 before 15, 15 before 18, and 15 by the ticks asked for,
/// whether the log would stop it sooner or not.
pub fn order(course: &mut Course) -> Compared {
    for turn in 0..ORDERS {
        let mut words = match turn % 2 {
            0 => scrambled_state(&mut course.rng),
            _ => state(&mut course.rng),
        };
        if let [_, time, ..] = &mut words[..] {
            *time = (*time).max(u64::from(CLOCK_END) - course.rng.below(50));
        }
        let left = words.get(1).map_or(0, |_| room(&words));
        let fault = course.rng.choose(&[0, u32::MAX]).unwrap_or(0);
        let jobs = match words.len() >= STATE_WORDS {
            true => releases(&words, left.min(30), NUMBERS),
            false => Vec::new(),
        };
        let mut faulty = full(&jobs);
        faulty.push(fault);
        let at = course.rng.index(faulty.len());
        faulty[at] = fault;
        let asked = [left, left.saturating_add(1), u32::MAX];
        let logs = [&faulty[..], &[], &[fault], &faulty[..at]];
        for (n, log) in asked.into_iter().flat_map(|n| logs.map(|log| (n, log))) {
            match refused_by(&words, n, left) {
                Some(refusal) => due_replay(course, &words, n, log, (refusal, 0, 0))?,
                None => same_replay(course, &words, n, log).map(|_| ())?,
            }
        }
    }
    Ok(())
}

/// What the state and the ticks alone are refused by.
fn refused_by(words: &[u64], n: u32, left: u32) -> Option<u64> {
    match well_formed_words(words).is_accepted() {
        true => (n > left).then_some(refusal::CLOCK),
        false => Some(refusal::STATE),
    }
}
