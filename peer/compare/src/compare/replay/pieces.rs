//! Replays against runs, and against the same replay in pieces.

use peer::answer::Answer;
use peer::brute::replay::releases;
use peer::gen::log;
use peer::table::ROWS_MAX;

use super::super::dispatch::{Both, Call};
use super::{enough, full, room, same_on, same_replay, same_words, start};
use crate::course::{Compared, Course, Difference};
use crate::draw::ticks;

/// States replayed with full lengths, and the most ticks of each.
const FULL: u32 = 5_000;
const FULL_TICKS: u32 = 1_500;

/// Replays in pieces, and the most ticks of each.
const PIECED: u32 = 700;
const PIECED_TICKS: u32 = 5_000;

/// With a number of C for each job, a replay leaves the state that the first program's
/// run does; with fewer numbers, that of the run of the ticks done.
pub fn full_lengths(course: &mut Course) -> Compared {
    for _ in 0..FULL {
        let words = start(&mut course.rng);
        let n = ticks(&mut course.rng, &words, FULL_TICKS);
        let jobs = releases(&words, n.min(FULL_TICKS), usize::MAX);
        let numbers = full(&jobs);
        let cut = course.rng.index(numbers.len() + 1);
        for log in [&numbers[..], &numbers[..cut]] {
            let (replayed, by_log) = same_replay(course, &words, n, log)?;
            let done = match replayed.answer {
                Answer { refusal: 0, value } => value as u32,
                _ => n,
            };
            let mut by_run = Both::new(&mut course.rng, &words);
            by_run.call(course, Call::Run(done))?;
            same_words(course, &by_log, &by_run, "full lengths, and the run")?;
        }
    }
    Ok(())
}

/// One replay at once, and the same in pieces: ticks and numbers of drawn lengths at a
/// time, each going on where the last one stopped.
pub fn pieces(course: &mut Course) -> Compared {
    let mut stops = 0;
    for _ in 0..PIECED {
        let words = start(&mut course.rng);
        let n = course.rng.word(1, PIECED_TICKS).min(room(&words));
        let jobs = releases(&words, n, usize::MAX);
        let numbers = log(&mut course.rng, &jobs);
        let (_, whole) = same_replay(course, &words, n, &numbers)?;
        let mut parts = Both::new(&mut course.rng, &words);
        let (mut left, mut rest) = (n, &numbers[..]);
        // As many as one tick can use must come at least now and then.
        let longest = ROWS_MAX + course.rng.index(400);
        while left > 0 {
            let asked = course.rng.word(1, left);
            let (lent, after) = rest.split_at(course.rng.index(longest + 1).min(rest.len()));
            let replayed = same_on(course, &mut parts, asked, lent, after)?;
            let done = replayed.answer.value as u32;
            stops += u32::from(done < asked);
            left -= done;
            rest = &rest[replayed.used as usize..];
        }
        same_words(course, &whole, &parts, "at once, and in pieces")?;
        if !rest.is_empty() {
            return Err(Difference(format!("{} numbers left over", rest.len())));
        }
    }
    enough(stops, PIECED, "pieces that a log stopped")
}
