//! Words that are no table: what the check refuses, the rooms refuse, in that order and
//! with that row; then 13; never 11.

use peer::table::{ROWS_MAX, ROW_WORDS};

use super::super::table::each_word_moved;
use super::same_rooms;
use crate::course::{shown, Compared, Course, Difference};
use crate::draw::{any_table, faults_in, room, sound, FAULTS};
use crate::ffi;

/// Tables drawn freely.
const DRAWN: u32 = 150_000;

/// Periods short enough that the second program's walk costs little.
const T_SHORT: u32 = 300;

/// The rooms into a drawn room, and the first program's rooms against its own check.
fn same_refusal(course: &mut Course, words: &[u32]) -> Compared {
    let before = room(&mut course.rng, words.len() / ROW_WORDS);
    same_rooms(course, words, &before)?;
    let checked = ffi::check(words);
    let mut after = before.clone();
    let answer = ffi::rooms(words, &mut after);
    let rows = words.len() / ROW_WORDS;
    let (due, refused) = match checked.is_accepted() {
        true if before.len() < rows => ((13, 0), true),
        accepted => ((checked.refusal, checked.value), !accepted),
    };
    let kept = if refused { 0 } else { rows };
    let same = (answer.refusal, answer.value) == due && after[kept..] == before[kept..];
    if same {
        return Ok(());
    }
    let (checked, answer) = (shown(checked), shown(answer));
    Err(Difference(format!(
        "words {words:?}\ncheck {checked}\nrooms {answer} {before:?} {after:?}"
    )))
}

/// Tables with faults, sound ones and rubbish.
pub fn drawn(course: &mut Course) -> Compared {
    for _ in 0..DRAWN {
        let words = any_table(&mut course.rng, T_SHORT);
        same_refusal(course, &words)?;
    }
    Ok(())
}

/// Each word of tables of several sizes, moved to every edge and to its neighbours.
pub fn fields(course: &mut Course) -> Compared {
    for rows in [1, 2, 3, 7, ROWS_MAX] {
        let well = sound(&mut course.rng, rows, T_SHORT);
        each_word_moved(&well, |words| same_refusal(course, words))?;
    }
    Ok(())
}

/// Every set of the faults of a row in row 1, and a drawn set in row 2.
pub fn fault_sets(course: &mut Course) -> Compared {
    let sets = 1 << FAULTS;
    for (set, over) in (0..sets).flat_map(|set| [0, sets - 1].map(|over| (set, over))) {
        for _ in 0..8 {
            let mut words = sound(&mut course.rng, 3, T_SHORT);
            let (first, other) = (words[0], course.rng.word(0, sets - 1));
            faults_in(&mut words[ROW_WORDS..2 * ROW_WORDS], set, over, first);
            if course.rng.once_in(2) {
                faults_in(&mut words[2 * ROW_WORDS..], other, over, first);
            }
            same_refusal(course, &words)?;
        }
    }
    Ok(())
}
