//! "Verdict": the load, the response times, admitted or not.

use crate::answer::{refusal, Answer};
use crate::table::{Table, TaskRow};

/// "For row i and a tick count t of at least 1, the load is C of row i plus,
/// for every row j above it, C of j times ceil(q x m / k), with q = ceil(t / T)
/// and m, k, T of row j." "the verdict uses the count of each row's own pattern"
/// (document 02, 3/14): ceil(q x m / k) is an even one's.
///
/// A row that the table does not have carries no load.
pub fn load(table: &Table, row: usize, t: u32) -> u64 {
    let own = table.rows().get(row).map(|own| u64::from(own.c));
    own.map_or(0, |own| own + load_above(table, row, t))
}

/// "the load that rows above bring by t" (document 02, 7/14): the same without C of
/// row i. Of a row past the last, every row is above.
///
/// The count is at most q, below 2^32, and C below 2^16, so 32 rows stay below
/// 2^53.
pub fn load_above(table: &Table, row: usize, t: u32) -> u64 {
    let above = table.rows().iter().take(row);
    above.map(|j| brought(j, t)).sum()
}

/// What one row brings by t: C for each mandatory one of the jobs it has released.
pub(crate) fn brought(row: &TaskRow, t: u32) -> u64 {
    let q = t.div_ceil(row.t);
    u64::from(row.c) * row.pattern().count(q)
}

/// "The row fits when some t from 1 to D has a load of at most t"; "the search
/// stops at the first tick that fits, and that tick is the row's response
/// time." Every t is walked.
pub fn response(table: &Table, row: usize) -> Option<u32> {
    let d = table.rows().get(row)?.d;
    (1..=d).find(|&t| load(table, row, t) <= u64::from(t))
}

/// The same tick, found by leaps. The load never falls as t grows, so when the
/// load at t is above t, no tick before that load can fit either.
pub fn response_leaping(table: &Table, row: usize) -> Option<u32> {
    let d = u64::from(table.rows().get(row)?.d);
    let mut t = 1;
    while u64::from(t) <= d {
        let load = load(table, row, t);
        if load <= u64::from(t) {
            return Some(t);
        }
        // A load past D ends the search; D is far below the end of a u32.
        t = load.min(d + 1) as u32;
    }
    None
}

/// "The table is admitted when every row fits; the response times are then
/// written to a lent run of words, one per row, words after them untouched.
/// Otherwise the first row that doesn't fit is named."
///
/// The value is the number of rows.
pub fn verdict(words: &[u32], room: &mut [u32]) -> Answer {
    judged(words, room, response)
}

/// The same answers as [`verdict`], by leaps.
pub fn verdict_leaping(words: &[u32], room: &mut [u32]) -> Answer {
    judged(words, room, response_leaping)
}

/// "for words 1, 2, 3, then row by row 4 to 10 in number order, then 13, then
/// 11", where 16 stands between 9 and 10; "Rows are tried from row 0". The room is written only when every row
/// has fitted: "No refusal alters a lent word or byte".
pub(crate) fn judged(
    words: &[u32],
    room: &mut [u32],
    mut fit: impl FnMut(&Table, usize) -> Option<u32>,
) -> Answer {
    in_words(words, room, |table, room| {
        let rows = room.len();
        let mut responses = Vec::with_capacity(rows);
        for row in 0..rows {
            match fit(table, row) {
                Some(t) => responses.push(t),
                None => return Answer::refused_at(refusal::UNSCHEDULABLE, row as u64),
            }
        }
        room.copy_from_slice(&responses);
        Answer::accepted(rows as u64)
    })
}

/// The refusals of words, then 13; otherwise what is said of the table, with as many
/// words of the room as it has rows.
pub(crate) fn in_words(
    words: &[u32],
    room: &mut [u32],
    say: impl FnOnce(&Table, &mut [u32]) -> Answer,
) -> Answer {
    let table = match Table::of(words) {
        Ok(table) => table,
        Err(answer) => return answer,
    };
    let Some(room) = room.get_mut(..table.rows().len()) else {
        return Answer::refused(refusal::ROOM_TOO_SHORT);
    };
    say(&table, room)
}
