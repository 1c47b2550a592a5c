//! The saved form of a state, and what is asked of it in that form.

use super::{fresh, replay, run, well_formed, Replayed, Row, State};
use crate::answer::{refusal, Answer};
use crate::table::{ROWS_MAX, ROW_WORDS};

/// Words before the rows of a saved state: rows, time, idle.
pub const HEAD_WORDS: usize = 3;

/// Words of one saved row: id, c, t, d, m, k, p, wait, place, work, left, kind,
/// window, released, mm, mx, om, ox, broken, held.
pub const SAVED_ROW_WORDS: usize = 20;

/// Where p stands in a saved row, the last of its table's words.
pub const P: usize = ROW_WORDS - 1;

/// Where the number of met marks stands in a saved row, and the window that it is
/// the number of.
pub const HELD: usize = 19;
pub const WINDOW: usize = 12;

/// Words of a saved state: always room for 32 rows.
pub const STATE_WORDS: usize = HEAD_WORDS + ROWS_MAX * SAVED_ROW_WORDS;

/// The saved form of a state: [rows, time, idle], then 32 rows of 20 words.
pub fn to_words(state: &State) -> [u64; STATE_WORDS] {
    let mut words = [0; STATE_WORDS];
    words[0] = u64::from(state.rows);
    words[1] = u64::from(state.time);
    words[2] = u64::from(state.idle);
    let (saved, _) = words[HEAD_WORDS..].as_chunks_mut::<SAVED_ROW_WORDS>();
    for (saved, row) in saved.iter_mut().zip(&state.row) {
        *saved = saved_row(row);
    }
    words
}

fn saved_row(row: &Row) -> [u64; SAVED_ROW_WORDS] {
    let low = [
        row.id, row.c, row.t, row.d, row.m, row.k, row.p, row.wait, row.place, row.work, row.left,
        row.kind,
    ];
    let mut saved = [0; SAVED_ROW_WORDS];
    for (word, field) in saved.iter_mut().zip(low) {
        *word = u64::from(field);
    }
    saved[WINDOW] = row.window;
    saved[WINDOW + 1..HELD].copy_from_slice(&counts(row));
    saved[HELD] = u64::from(row.held);
    saved
}

/// "released jobs, mandatory met and missed, optional met and missed, and broken
/// windows": the order in which they are saved and printed.
pub(crate) fn counts(row: &Row) -> [u64; 6] {
    [row.released, row.mm, row.mx, row.om, row.ox, row.broken].map(u64::from)
}

/// The state that the words save, or `None` when there is none: a length other
/// than 643, or a word too large for its field. Well formed or not is another
/// question.
pub fn from_words(words: &[u64]) -> Option<State> {
    let words: &[u64; STATE_WORDS] = words.try_into().ok()?;
    let mut state = State {
        rows: u32::try_from(words[0]).ok()?,
        time: u32::try_from(words[1]).ok()?,
        idle: u32::try_from(words[2]).ok()?,
        row: [Row::default(); ROWS_MAX],
    };
    let (saved, _) = words[HEAD_WORDS..].as_chunks::<SAVED_ROW_WORDS>();
    for (row, saved) in state.row.iter_mut().zip(saved) {
        *row = row_from(saved)?;
    }
    Some(state)
}

fn row_from(saved: &[u64; SAVED_ROW_WORDS]) -> Option<Row> {
    let field = |at: usize| u32::try_from(saved[at]).ok();
    Some(Row {
        id: field(0)?,
        c: field(1)?,
        t: field(2)?,
        d: field(3)?,
        m: field(4)?,
        k: field(5)?,
        p: field(P)?,
        wait: field(7)?,
        place: field(8)?,
        work: field(9)?,
        left: field(10)?,
        kind: field(11)?,
        window: saved[WINDOW],
        released: field(13)?,
        mm: field(14)?,
        mx: field(15)?,
        om: field(16)?,
        ox: field(17)?,
        broken: field(18)?,
        held: field(HELD)?,
    })
}

/// 14, or accepted with value 0. A word too large for its field is past the
/// bound that the document sets for it, every such bound being below 2^32.
pub fn well_formed_words(words: &[u64]) -> Answer {
    match from_words(words) {
        Some(state) if well_formed(&state) => Answer::accepted(0),
        _ => Answer::refused(refusal::STATE),
    }
}

/// A run on a saved state: "a refused run hands back the state it got".
pub fn run_words(words: &mut [u64], n: u32) -> Answer {
    let Some(mut state) = from_words(words) else {
        return Answer::refused(refusal::STATE);
    };
    let answer = run(&mut state, n);
    if answer.is_accepted() {
        // The length is 643: from_words has taken these words.
        words.copy_from_slice(&to_words(&state));
    }
    answer
}

/// A replay on a saved state: refused, "the state is the one given".
pub fn replay_words(words: &mut [u64], n: u32, log: &[u32]) -> Replayed {
    let Some(mut state) = from_words(words) else {
        return Replayed::refused(Answer::refused(refusal::STATE));
    };
    let replayed = replay(&mut state, n, log);
    if replayed.answer.is_accepted() {
        words.copy_from_slice(&to_words(&state));
    }
    replayed
}

/// One tick on a saved state, refused as a run of one is.
pub fn tick_words(words: &mut [u64]) -> Answer {
    run_words(words, 1)
}

/// The fresh state of a table, saved into the first 643 words of the lent room.
/// The table's refusals come first, then 13. The value is the number of rows.
pub fn fresh_words(table: &[u32], room: &mut [u64]) -> Answer {
    let state = match fresh(table) {
        Ok(state) => state,
        Err(answer) => return answer,
    };
    let Some(room) = room.get_mut(..STATE_WORDS) else {
        return Answer::refused(refusal::ROOM_TOO_SHORT);
    };
    room.copy_from_slice(&to_words(&state));
    Answer::accepted(u64::from(state.rows))
}
