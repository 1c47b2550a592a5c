//! "A state offered by a caller is well formed when ..": states and what is
//! nearly one, offered to every function that takes a state.

use peer::dispatch::{run_words, tick_words, well_formed_words};
use peer::gen::{damaged_states, scrambled_state, state};

use super::{same_call, Call};
use crate::course::{shown, Compared, Course};
use crate::draw::{every_bit, followed, row_counts, state_lengths, ticks};
use crate::ffi;

/// States whose fields are damaged in turn, well over a thousand ways each.
const DAMAGED: u32 = 120;

/// States of which every bit is turned over, 41,152 of them each.
const TURNED: u32 = 4;

/// States offered with other numbers of rows.
const RENUMBERED: u32 = 40;

/// States with several words changed at once.
const SCRAMBLED: u32 = 120_000;

/// The most ticks of a run that is not refused.
const MOST: u32 = 12;

/// Well formed or not, a tick, a run.
fn same_calls(course: &mut Course, words: &[u64]) -> Compared {
    let n = ticks(&mut course.rng, words, MOST);
    for call in [Call::Well, Call::Tick, Call::Run(n)] {
        same_call(course, words, call)?;
    }
    Ok(())
}

/// A state cut short, and with zeros, with rubbish and with itself after it.
pub fn lengths(course: &mut Course) -> Compared {
    for length in state_lengths() {
        let good = state(&mut course.rng);
        for whole in followed(&mut course.rng, &good, length) {
            same_calls(course, &whole[..length])?;
        }
    }
    no_words(course)
}

/// A slice without any memory behind it, as a Rust caller may lend.
fn no_words(course: &mut Course) -> Compared {
    let answers = [
        (ffi::well(&[]), well_formed_words(&[])),
        (ffi::tick(&mut []), tick_words(&mut [])),
        (ffi::run(&mut [], 0), run_words(&mut [], 0)),
        (ffi::run(&mut [], u32::MAX), run_words(&mut [], u32::MAX)),
    ];
    for (first, peer) in answers {
        course.settle(peer, first == peer, || {
            format!("no words: {} {}", shown(first), shown(peer))
        })?;
    }
    Ok(())
}

/// The number of rows changed, also to one less than the rows that stand there.
pub fn rows(course: &mut Course) -> Compared {
    for _ in 0..RENUMBERED {
        let mut words = state(&mut course.rng);
        for rows in row_counts() {
            words[0] = rows;
            same_calls(course, &words)?;
        }
    }
    Ok(())
}

/// Each field damaged in turn, each bound at its end and one past it, and then
/// once more in a state that is damaged already.
pub fn fields(course: &mut Course) -> Compared {
    for _ in 0..DAMAGED {
        let good = state(&mut course.rng);
        let damaged = damaged_states(&mut course.rng, &good);
        for one in &damaged {
            same_calls(course, &one.words)?;
        }
        let one = &damaged[course.rng.index(damaged.len())];
        for twice in damaged_states(&mut course.rng, &one.words) {
            same_calls(course, &twice.words)?;
        }
    }
    Ok(())
}

/// Each bit of all 643 words, those past the last row included.
pub fn bits(course: &mut Course) -> Compared {
    for _ in 0..TURNED {
        let good = state(&mut course.rng);
        for words in every_bit(&good) {
            same_calls(course, &words)?;
        }
    }
    Ok(())
}

/// Counts whose sum overflows, jobs made or taken away, ids that stand twice.
pub fn scrambled(course: &mut Course) -> Compared {
    for _ in 0..SCRAMBLED {
        let words = scrambled_state(&mut course.rng);
        same_calls(course, &words)?;
    }
    Ok(())
}
