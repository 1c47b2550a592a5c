//! States saved before a row had p, 611 words, and before it had the number of met
//! marks either, 579 words.

use peer::answer::{refusal, Answer};
use peer::dispatch::{well_formed_words, HEAD_WORDS, HELD, P, SAVED_ROW_WORDS, STATE_WORDS};
use peer::gen::state;
use peer::rng::Rng;
use peer::table::ROWS_MAX;

use super::asked::{same_held, telling_rows};
use super::{same_whole, Place};
use crate::course::{Compared, Course};

/// States taken back to their old forms.
const STATES: u32 = 4_000;
const PADDED: u32 = 3_000;

/// What the rows of the old forms were without.
const FORMS: [&[usize]; 2] = [&[P], &[P, HELD]];

const _: () = assert!(STATE_WORDS - ROWS_MAX == 611 && STATE_WORDS - 2 * ROWS_MAX == 579);

/// The state without these words of each row, and those words one after the other.
fn old(words: &[u64], without: &[usize]) -> (Vec<u64>, Vec<u64>) {
    let (head, rows) = words.split_at(HEAD_WORDS);
    let (mut kept, mut left_out) = (head.to_vec(), Vec::new());
    for row in rows.chunks_exact(SAVED_ROW_WORDS) {
        for (at, &word) in row.iter().enumerate() {
            if without.contains(&at) {
                left_out.push(word);
            } else {
                kept.push(word);
            }
        }
    }
    (kept, left_out)
}

/// Most of them of any number of rows; one in three of a single row, and all its
/// marks missed in half of these. One in four of those has never released a job, and
/// is a state of another kind with as many zeros after it as are lacking.
fn drawn(rng: &mut Rng) -> Vec<u64> {
    if !rng.once_in(3) {
        return state(rng);
    }
    let (place, k) = (Place::new(1, 0), rng.word(1, 64));
    let mut words = place.state(rng, k);
    if rng.once_in(2) {
        place.lay(&mut words, 0);
    }
    if rng.once_in(4) {
        let (first, last) = (place.at(P + 1), place.at(SAVED_ROW_WORDS));
        words[first..last].fill(0);
    }
    words
}

/// The frame question about the rows that tell most.
fn same_asked(course: &mut Course, words: &[u64]) -> Compared {
    for row in telling_rows(words) {
        same_held(course, words, row)?;
    }
    Ok(())
}

/// As they were: of another length than a state, and refused for it by everything.
pub fn states(course: &mut Course) -> Compared {
    for round in 0..STATES {
        let new = drawn(&mut course.rng);
        let (words, _) = old(&new, FORMS[round as usize % 2]);
        same_whole(course, &words, 0, Answer::refused(refusal::STATE))?;
        same_asked(course, &words)?;
    }
    Ok(())
}

/// With as many words after them as are lacking: zeros, or those that were left out
/// one after the other. What they are then is for the rules to say.
pub fn padded(course: &mut Course) -> Compared {
    for round in 0..PADDED {
        let new = drawn(&mut course.rng);
        let (words, left_out) = old(&new, FORMS[round as usize % 2]);
        for after in [vec![0; left_out.len()], left_out] {
            let words = [&words[..], &after].concat();
            let due = well_formed_words(&words);
            same_whole(course, &words, 0, due)?;
            same_asked(course, &words)?;
        }
    }
    Ok(())
}
