//! The frame question: the number of met marks of a row as it is stored, from words
//! of which only their number and the number of rows are looked at.

use peer::answer::Answer;
use peer::brute::held::met_among;
use peer::counts::held_words;
use peer::dispatch::{HELD, STATE_WORDS, WINDOW};
use peer::gen::{damaged_states, scrambled_state, state};
use peer::rng::Rng;
use peer::table::ROWS_MAX;

use super::super::counts;
use super::super::dispatch::{begun, Call};
use super::{kept_true, Place};
use crate::course::{shown, Compared, Course, Difference};
use crate::draw::{every_bit, followed, row_counts, run_table, state_lengths, state_room_of};
use crate::ffi;
use crate::lent::Lent;

/// Runs from fresh, the times that each is asked about and the most ticks between
/// them.
const RUN: u32 = 400;
const ASKED: u32 = 4;
const RUN_TICKS: u32 = 1_000;

/// States whose fields are damaged in turn, hundreds of ways each.
const DAMAGED: u32 = 60;

/// States with several words changed at once, and rooms of rubbish.
const SCRAMBLED: u32 = 40_000;

/// States offered with other numbers of rows.
const RENUMBERED: u32 = 60;

/// Both answers, and the words that were lent for them.
pub fn same_held(course: &mut Course, words: &[u64], row: u32) -> Compared {
    let lent = Lent::new(&mut course.rng, words);
    same_lent(course, lent, words, row).map(|_| ())
}

/// The same on words already lent; gives the first program's answer.
fn same_lent(
    course: &mut Course,
    mut lent: Lent<u64>,
    words: &[u64],
    row: u32,
) -> Result<Answer, Difference> {
    let first = ffi::held_lent(&mut lent, row);
    let peer = held_words(words, row);
    let same = first == peer && lent.holds(words);
    course.settle(peer, same, || {
        let (length, first, peer) = (words.len(), shown(first), shown(peer));
        let (altered, beside) = (lent.words() != words, lent.altered_beside());
        format!(
            "met marks of row {row} of {length} words {words:?}\nfirst {first}\npeer  {peer}\n\
             state altered {altered}, beside it {beside:?}"
        )
    })?;
    Ok(first)
}

/// The first row and the last, the ones after it, the last that any state has, the
/// one after that, and the last number.
pub fn telling_rows(words: &[u64]) -> [u32; 7] {
    let rows = words.first().map_or(0, |&rows| rows as u32);
    let last = rows.wrapping_sub(1);
    [0, last, rows, rows.wrapping_add(1), 31, 32, u32::MAX]
}

/// One of those, or any that a state can have.
fn row(rng: &mut Rng, words: &[u64]) -> u32 {
    let telling = rng.choose(&telling_rows(words)).unwrap_or(0);
    let any = rng.word(0, ROWS_MAX as u32);
    if rng.once_in(2) {
        telling
    } else {
        any
    }
}

/// States of the first program from fresh on: every row's answer is what its window
/// holds, counted mark by mark. There must be windows with all marks met, with none
/// and with some.
pub fn runs(course: &mut Course) -> Compared {
    let mut seen = [0u32; 3];
    for _ in 0..RUN {
        let table = run_table(&mut course.rng);
        let mut both = begun(course, &table)?;
        for _ in 0..ASKED {
            kept_true(both.first.words()).map_err(Difference)?;
            let words = both.first.words().to_vec();
            for row in counts::rows() {
                same_held(course, &words, row)?;
            }
            for row in 0..words[0] as usize {
                seen[counted(course, &words, row)?] += 1;
            }
            let n = course.rng.word(0, RUN_TICKS);
            both.call(course, Call::Run(n))?;
        }
    }
    if seen.contains(&0) {
        let text = format!("windows with none met, some, all: {seen:?}");
        return Err(Difference(text));
    }
    Ok(())
}

/// The answer for a row against its window: 0 if no mark is met, 2 if all are, and
/// otherwise 1.
fn counted(course: &mut Course, words: &[u64], row: usize) -> Result<usize, Difference> {
    let place = Place::new(words[0] as usize, row);
    let (window, k) = (words[place.at(WINDOW)], words[place.at(5)] as u32);
    let met = met_among(window, k);
    let lent = Lent::new(&mut course.rng, words);
    let first = same_lent(course, lent, words, row as u32)?;
    if first != Answer::accepted(met.into()) {
        let first = shown(first);
        let text = format!("row {row}: {first}, met in the window {window:#b} {met}");
        return Err(Difference(text));
    }
    Ok(usize::from(met > 0) + usize::from(met == k))
}

/// Each field damaged in turn; several words at once; every word rubbish but the
/// number of rows.
pub fn damaged(course: &mut Course) -> Compared {
    for _ in 0..DAMAGED {
        let good = state(&mut course.rng);
        for one in damaged_states(&mut course.rng, &good) {
            let row = row(&mut course.rng, &one.words);
            same_held(course, &one.words, row)?;
        }
    }
    for _ in 0..SCRAMBLED {
        let words = match course.rng.below(3) {
            0 => rubbish(&mut course.rng),
            1 => number_alone(&mut course.rng),
            _ => scrambled_state(&mut course.rng),
        };
        let row = row(&mut course.rng, &words);
        same_held(course, &words, row)?;
    }
    Ok(())
}

/// As many words as a state has, all of them drawn, with mostly a number of rows
/// that a state can have.
fn rubbish(rng: &mut Rng) -> Vec<u64> {
    let mut words = state_room_of(rng, STATE_WORDS);
    words[0] = rng.below(ROWS_MAX as u64 + 3);
    words
}

/// A state in which one row, mostly the one asked about, has any number.
fn number_alone(rng: &mut Rng) -> Vec<u64> {
    let mut words = state(rng);
    let rows = words[0] as usize;
    let place = Place::new(rows, rng.index(rows + 1).min(ROWS_MAX - 1));
    words[place.at(HELD)] = rng.bits() >> rng.below(64);
    words
}

/// Each bit of all 643 words turned over.
pub fn bits(course: &mut Course) -> Compared {
    let good = state(&mut course.rng);
    for words in every_bit(&good) {
        let row = row(&mut course.rng, &words);
        same_held(course, &words, row)?;
    }
    Ok(())
}

/// A state cut short, with what was cut right after it, and a state with zeros, with
/// rubbish and with itself after it.
pub fn lengths(course: &mut Course) -> Compared {
    for length in state_lengths() {
        let good = state(&mut course.rng);
        for whole in followed(&mut course.rng, &good, length) {
            let (words, cut) = whole.split_at(length);
            for row in telling_rows(&good) {
                let lent = Lent::followed(&mut course.rng, words, cut);
                same_lent(course, lent, words, row)?;
            }
        }
    }
    no_words(course)
}

/// A slice without any memory behind it, as a Rust caller may lend.
fn no_words(course: &mut Course) -> Compared {
    for row in [0, 1, 31, 32, u32::MAX] {
        let (first, peer) = (ffi::held(&[], row), held_words(&[], row));
        course.settle(peer, first == peer, || {
            let (first, peer) = (shown(first), shown(peer));
            format!("met marks of row {row} of no words: {first} {peer}")
        })?;
    }
    Ok(())
}

/// The number of rows changed: to fewer rows than stand there, to more, and to
/// numbers whose low bits alone would do.
pub fn rows(course: &mut Course) -> Compared {
    for _ in 0..RENUMBERED {
        let mut words = state(&mut course.rng);
        let before = telling_rows(&words);
        for rows in row_counts() {
            words[0] = rows;
            for row in telling_rows(&words) {
                same_held(course, &words, row)?;
            }
            let row = course.rng.choose(&before).unwrap_or(0);
            same_held(course, &words, row)?;
        }
    }
    Ok(())
}
