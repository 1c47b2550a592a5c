//! p of a saved state damaged alone: past its bound it is refused by everything, and
//! 0 in place of 1, or 1 in place of 0, is a state that goes on by the other pattern.

use peer::answer::{refusal, Answer};
use peer::dispatch::{HEAD_WORDS, P, SAVED_ROW_WORDS};
use peer::gen::state;
use peer::table::ROWS_MAX;

use super::super::dispatch::{begun, Both, Call};
use super::super::held::same_whole;
use crate::course::{Compared, Course, Difference};
use crate::draw::run_table;

/// States drawn from all the well-formed ones.
const DAMAGED: u32 = 800;

/// Runs from fresh in which a p is swapped, and the ticks before it and after it.
const SWAPPED: u32 = 1_500;
const BEFORE: u32 = 400;
const AFTER: u32 = 200;

/// Words that are no p: just past it, the ends of 32 and 64 bits, and words whose low
/// bits alone would do.
const NO_P: [u64; 12] = [
    2,
    3,
    64,
    65_535,
    65_536,
    4_294_967_295,
    1 << 32,
    (1 << 32) + 1,
    (1 << 32) + 2,
    1 << 63,
    (1 << 63) + 1,
    u64::MAX,
];

fn place(row: usize) -> usize {
    HEAD_WORDS + row * SAVED_ROW_WORDS + P
}

/// Each of the words in each of the rows, past the last ones too, where 1 is none
/// either.
pub fn damaged(course: &mut Course) -> Compared {
    let refused = Answer::refused(refusal::STATE);
    for _ in 0..DAMAGED {
        let mut words = state(&mut course.rng);
        let rows = words[0] as usize;
        let row = course.rng.index(rows);
        for row in [0, row, rows - 1] {
            let kept = words[place(row)];
            for p in NO_P {
                words[place(row)] = p;
                same_whole(course, &words, row, refused)?;
            }
            for p in [1 - kept, kept] {
                words[place(row)] = p;
                same_whole(course, &words, row, Answer::accepted(0))?;
            }
        }
        let past = rows + course.rng.index(ROWS_MAX - rows + 1);
        for row in [rows, past, ROWS_MAX - 1] {
            if (rows..ROWS_MAX).contains(&row) {
                words[place(row)] = 1;
                same_whole(course, &words, row, refused)?;
                words[place(row)] = 0;
            }
        }
    }
    Ok(())
}

/// Runs on after p of some rows was swapped, tick by tick and then at once, and the
/// same run without. There must be runs that the swap made another.
pub fn swapped(course: &mut Course) -> Compared {
    let mut other = 0;
    for _ in 0..SWAPPED {
        let table = run_table(&mut course.rng);
        let mut both = begun(course, &table)?;
        let n = course.rng.word(0, BEFORE);
        both.call(course, Call::Run(n))?;
        let mut words = both.first.words().to_vec();
        let set = course.rng.bits() as u32 | 1;
        for row in (0..words[0] as usize).filter(|row| set >> row & 1 == 1) {
            words[place(row)] ^= 1;
        }
        let mut turned = Both::new(&mut course.rng, &words);
        for _ in 0..AFTER / 2 {
            turned.tick(course)?;
        }
        turned.call(course, Call::Run(AFTER / 2))?;
        both.call(course, Call::Run(AFTER))?;
        let rest = |words: &[u64]| {
            let mut words = words.to_vec();
            (0..ROWS_MAX).for_each(|row| words[place(row)] = 0);
            words
        };
        other += u32::from(rest(turned.first.words()) != rest(both.first.words()));
    }
    if other < SWAPPED / 10 {
        return Err(Difference(format!(
            "{other} runs became another by the swap"
        )));
    }
    Ok(())
}
