//! What is read off one row of a saved state: its counts, as the printing program
//! names them, and the number of met marks that the screen asks for.

use crate::answer::{refusal, Answer};
use crate::dispatch::{counts, from_words, spare, well_formed, Row};
use crate::dispatch::{HEAD_WORDS, HELD, SAVED_ROW_WORDS, STATE_WORDS, WINDOW};
use crate::table::ROWS_MAX;

/// released, mm, mx, om, ox, broken, spare
pub const COUNT_WORDS: usize = 7;

fn counts_of(row: &Row) -> [u64; COUNT_WORDS] {
    let [released, mm, mx, om, ox, broken] = counts(row);
    let spare = u64::from(spare(row.window, row.m, row.k));
    [released, mm, mx, om, ox, broken, spare]
}

/// The counts of a row, into the first seven words of the lent room: 14, then
/// 13. Rows past the last are all zero, and so are their counts.
pub fn counts_words(words: &[u64], row: u32, room: &mut [u64]) -> Answer {
    let Some(state) = from_words(words).filter(well_formed) else {
        return Answer::refused(refusal::STATE);
    };
    let Some(room) = room.get_mut(..COUNT_WORDS) else {
        return Answer::refused(refusal::ROOM_TOO_SHORT);
    };
    let kept = state.row.get(row as usize);
    room.copy_from_slice(&kept.map_or([0; COUNT_WORDS], counts_of));
    Answer::accepted(0)
}

/// Where a row begins, if the state has it. 14 when the words are not as many as a
/// state has, or the number of rows is that of no table; nothing else is looked at.
fn row_at(words: &[u64], row: u32) -> Result<Option<usize>, Answer> {
    let rows = match *words {
        [rows, ..] if words.len() == STATE_WORDS => rows,
        _ => 0,
    };
    if !(1..=ROWS_MAX as u64).contains(&rows) {
        return Err(Answer::refused(refusal::STATE));
    }
    let kept = u64::from(row) < rows;
    Ok(kept.then(|| HEAD_WORDS + row as usize * SAVED_ROW_WORDS))
}

/// "The screen asks for it in every frame" (document 02, 2/14): the number of met
/// marks of a row, as it is stored, and 0 where there is no such row.
pub fn held_words(words: &[u64], row: u32) -> Answer {
    let at = match row_at(words, row) {
        Ok(at) => at,
        Err(answer) => return answer,
    };
    Answer::accepted(at.map_or(0, |at| words[at + HELD]))
}

/// The same question as it was answered before: "it is counted from the window
/// each time".
pub fn held_counted_words(words: &[u64], row: u32) -> Answer {
    let at = match row_at(words, row) {
        Ok(at) => at,
        Err(answer) => return answer,
    };
    let met = at.map_or(0, |at| words[at + WINDOW].count_ones());
    Answer::accepted(u64::from(met))
}
