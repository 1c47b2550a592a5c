//! p at its bound and past it, beside other faults, and tables of six-word rows.

use peer::dispatch::P;
use peer::gen::six_words_a_row;
use peer::table::{ROWS_MAX, ROW_WORDS};

use super::super::dispatch::same_fresh;
use super::super::table::same_table;
use super::super::text::same_there_and_back;
use crate::course::{Compared, Course};
use crate::draw::{byte_room, faults_in, sound, state_room, EDGES};

/// Rounds, each with tables of its own.
const BOUNDS: u32 = 12;
const PAIRINGS: u32 = 40;
const SIX_WORDS: u32 = 60;

/// Periods short enough that the second program's walk costs little.
const T_SHORT: u32 = 200;

/// Words for p: the bound, and words of which some bits alone are in range.
const PS: [u32; 8] = [0, 1, 2, 3, u32::MAX, 1 << 16, (1 << 16) + 1, 1 << 31];

/// Everything that takes a table: the check, the verdict, the fresh state, the text.
fn same_all(course: &mut Course, words: &[u32]) -> Compared {
    same_table(course, words)?;
    let room = state_room(&mut course.rng);
    same_fresh(course, words, &room)?;
    let room = byte_room(&mut course.rng, 200);
    same_there_and_back(course, words, &room)
}

/// p of each row of tables of several sizes, the others' in range.
pub fn bounds(course: &mut Course) -> Compared {
    for _ in 0..BOUNDS {
        for rows in [1, 2, 7, ROWS_MAX] {
            let well = sound(&mut course.rng, rows, T_SHORT);
            for at in (0..rows).map(|row| row * ROW_WORDS + P) {
                for p in PS.into_iter().chain(EDGES) {
                    let mut words = well.clone();
                    words[at] = p;
                    same_all(course, &words)?;
                }
            }
        }
    }
    Ok(())
}

/// Which of the faults of a row: 9, 16 and 10, by their bits.
const NINE: u32 = 1 << 5;
const SIXTEEN: u32 = 1 << 6;
const TEN: u32 = 1 << 7;

/// "16 .. comes after 9 and before 10": every set of the three in one row, with every
/// set of them in a later row.
pub fn pairings(course: &mut Course) -> Compared {
    let sets: Vec<u32> = (0..8)
        .map(|set: u32| {
            let chosen = |bit: u32, fault: u32| (set >> bit & 1) * fault;
            chosen(0, NINE) | chosen(1, SIXTEEN) | chosen(2, TEN)
        })
        .collect();
    for _ in 0..PAIRINGS {
        let rows = 3 + course.rng.index(4);
        let upper = 1 + course.rng.index(rows - 2);
        let lower = upper + 1 + course.rng.index(rows - upper - 1);
        let well = sound(&mut course.rng, rows, T_SHORT);
        for (a, b) in sets.iter().flat_map(|a| sets.iter().map(move |b| (*a, *b))) {
            let mut words = well.clone();
            for (row, faults) in [(upper, a), (lower, b)] {
                let earlier = well[course.rng.index(row) * ROW_WORDS];
                let over = course.rng.word(0, 255);
                let row = &mut words[row * ROW_WORDS..(row + 1) * ROW_WORDS];
                faults_in(row, faults, over, earlier);
            }
            same_all(course, &words)?;
        }
    }
    Ok(())
}

/// Tables as they were before, of every number of rows: seven of their rows are looked
/// at as six. Some of those are then made such that the first rows pass.
pub fn six_words(course: &mut Course) -> Compared {
    for _ in 0..SIX_WORDS {
        for rows in (1..=ROWS_MAX).chain([35, 42, 49]) {
            let well = sound(&mut course.rng, rows, T_SHORT);
            let mut words = six_words_a_row(&well);
            same_all(course, &words)?;
            if !words.len().is_multiple_of(ROW_WORDS) {
                continue;
            }
            let passing = 1 + course.rng.index(words.len() / ROW_WORDS);
            let passing = passing.min(rows) * ROW_WORDS;
            words[..passing].copy_from_slice(&well[..passing]);
            same_all(course, &words)?;
            let at = course.rng.index(words.len());
            words[at] = course.rng.word(0, 3);
            same_all(course, &words)?;
        }
    }
    Ok(())
}
