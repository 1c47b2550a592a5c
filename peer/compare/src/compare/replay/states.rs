//! States and what is nearly one, the clock's end among them: 14 and 15 whatever the log.

use peer::brute::replay::releases;
use peer::dispatch::{replay_words, CLOCK_END, STATE_WORDS};
use peer::gen::{any_log, damaged_states, scrambled_state, state};
use peer::rng::Rng;

use super::super::dispatch::Both;
use super::{full, replayed_shown, room, same_on, same_replay, start};
use crate::course::{Compared, Course};
use crate::draw::{every_bit, followed, state_lengths, ticks};
use crate::ffi;

/// States whose fields are damaged in turn, hundreds of ways each.
const DAMAGED: u32 = 40;

/// States with several words changed at once.
const SCRAMBLED: u32 = 50_000;

/// States moved to the clock's end, and the ticks before it that are tried.
const AT_END: u32 = 60;
const BACK: u32 = 12;

/// The most ticks of a replay that is not refused, and numbers of its log.
const MOST: u32 = 12;
const NUMBERS: usize = 40;

/// A log for the state as it was before it was damaged: sound mostly, so that what is
/// left of the state is all that can be refused.
fn log_for(rng: &mut Rng, good: &[u64]) -> Vec<u32> {
    let jobs = releases(good, MOST, NUMBERS);
    match rng.once_in(3) {
        true => any_log(rng, &jobs),
        false => full(&jobs),
    }
}

fn same_with(course: &mut Course, words: &[u64], log: &[u32]) -> Compared {
    let n = ticks(&mut course.rng, words, MOST);
    same_replay(course, words, n, log).map(|_| ())
}

/// Each field damaged in turn, each bound at its end and one past it.
pub fn fields(course: &mut Course) -> Compared {
    for _ in 0..DAMAGED {
        let good = state(&mut course.rng);
        for one in damaged_states(&mut course.rng, &good) {
            let log = log_for(&mut course.rng, &good);
            same_with(course, &one.words, &log)?;
        }
    }
    Ok(())
}

/// A state that releases a job soon, and long before the clock's end; a number of C for
/// each of its jobs; and the same log with a number out of range before it.
fn releasing(rng: &mut Rng) -> (Vec<u64>, Vec<u32>, Vec<u32>) {
    loop {
        let good = start(rng);
        let full = full(&releases(&good, MOST, NUMBERS));
        if room(&good) > MOST && !full.is_empty() {
            let faulty = [&[0], &full[..]].concat();
            return (good, full, faulty);
        }
    }
}

/// Each bit of all 643 words, those past the last row included.
pub fn bits(course: &mut Course) -> Compared {
    let (good, full, faulty) = releasing(&mut course.rng);
    for words in every_bit(&good) {
        same_with(course, &words, &full)?;
        same_with(course, &words, &faulty)?;
    }
    Ok(())
}

/// Counts whose sum overflows, jobs made or taken away, ids that stand twice.
pub fn scrambled(course: &mut Course) -> Compared {
    for _ in 0..SCRAMBLED {
        let words = scrambled_state(&mut course.rng);
        let log = log_for(&mut course.rng, &words);
        same_with(course, &words, &log)?;
    }
    Ok(())
}

/// A state cut short, and with zeros, with rubbish and with itself after it.
pub fn lengths(course: &mut Course) -> Compared {
    for length in state_lengths() {
        let (good, full, faulty) = releasing(&mut course.rng);
        for whole in followed(&mut course.rng, &good, length) {
            for log in [&full, &faulty] {
                same_replay(course, &whole[..length], MOST, log)?;
            }
        }
    }
    no_words(course)
}

/// Slices without any memory behind them, as a Rust caller may lend.
fn no_words(course: &mut Course) -> Compared {
    for n in [0, 1, u32::MAX] {
        for log in [&[] as &[u32], &[1], &[0]] {
            let first = ffi::replay(&mut [], n, log);
            let peer = replay_words(&mut [], n, log);
            course.settle(peer.answer, first == peer, || {
                let (first, peer) = (replayed_shown(first), replayed_shown(peer));
                format!("no words: {first} {peer}")
            })?;
        }
    }
    Ok(())
}

/// Every tick before the clock's end with every n that just fits or just does not; the
/// log in full, short, empty, and with a number out of range in front.
pub fn clock_end(course: &mut Course) -> Compared {
    for at in 0..AT_END {
        let mut words = match at % 4 {
            0 => scrambled_state(&mut course.rng),
            _ => start(&mut course.rng),
        };
        if words.len() < 2 {
            continue;
        }
        for back in 0..=BACK {
            words[1] = u64::from(CLOCK_END - back);
            let far = [1 << 16, 1 << 31, CLOCK_END - back, CLOCK_END];
            near_end(course, &words, (0..=BACK + 2).chain(far))?;
        }
        for past in [1, 2, 1 << 31, 1 << 32] {
            words[1] = u64::from(CLOCK_END) + past;
            near_end(course, &words, [0, 1, CLOCK_END].into_iter())?;
        }
    }
    Ok(())
}

fn near_end(course: &mut Course, words: &[u64], asked: impl Iterator<Item = u32>) -> Compared {
    let jobs = match words.len() >= STATE_WORDS {
        true => releases(words, BACK + 2, NUMBERS),
        false => Vec::new(),
    };
    let full = full(&jobs);
    let faulty = [&[0], &full[..]].concat();
    for n in asked {
        let short = course.rng.index(full.len() + 1);
        for log in [&full[..], &full[..short], &[], &faulty] {
            let mut both = Both::new(&mut course.rng, words);
            same_on(course, &mut both, n, log, &full)?;
        }
    }
    Ok(())
}
