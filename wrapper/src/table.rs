//! Task tables, the verdict on one, and the rooms of its rows.

use crate::{ffi, filled, Refusal};

/// The most rows of a table.
pub const ROWS_MAX: usize = 32;

/// Words of a row of a table: id, C, T, D, m, k, p. What p names is a [`Pattern`](crate::Pattern).
///
/// Before 3/14 a row had six words, with no p. Nothing guesses which form is meant. A table of six-word rows is refused with 1 where
/// its length is no multiple of seven. Where it is one (7, 14, 21 or 28 rows), the words are judged as rows of seven, and some pass,
/// as another table than was meant. So put a p of 0 behind the k of every row before such a table is offered.
pub const TASK_WORDS: usize = 7;

/// Words of the longest table.
pub const TABLE_WORDS: usize = ROWS_MAX * TASK_WORDS;

/// Whether words are a table: its number of rows.
///
/// # Errors
///
/// Refusals 1, 2, 3, then row by row 4 to 9 in number order, 16, 10.
pub fn check(words: &[u32]) -> Result<usize, Refusal> {
    ffi::check(words).map(|rows| rows as usize)
}

/// The verdict on a table: its response times, one a row, from the start of the room. [`ROWS_MAX`] words are room for every
/// table. Of a table turned down, [`rooms`] tells by how much the row named is too long.
///
/// ```
/// use galleypoppy::{verdict, Refusal};
///
/// let mut room = [0; 2];
/// assert_eq!(verdict(&[1, 2, 4, 4, 1, 1, 0, 2, 2, 5, 5, 1, 1, 0], &mut room), Ok(&[2, 4][..]));
/// assert_eq!(verdict(&[1, 2, 4, 4, 1, 1, 0, 2, 3, 5, 5, 1, 1, 0], &mut room), Err(Refusal::Unschedulable(1)));
/// ```
///
/// # Errors
///
/// Refusals 1, 2, 3, then row by row 4 to 9 in number order, 16, 10; then 13, 11.
pub fn verdict<'a>(words: &[u32], room: &'a mut [u32]) -> Result<&'a [u32], Refusal> {
    let rows = ffi::verdict(words, room)?;
    Ok(filled(room, rows as usize))
}

/// The rooms of a table's rows, admitted or not, one a row, from the start of the lent words. [`ROWS_MAX`] words are enough for
/// every table.
///
/// A row's room is a number of ticks: the largest value, over t from 1 to its D, of t less the load that rows above bring by t, or 0
/// if that is never positive. The row fits exactly when its C is at most its room. So C of a row may be raised to its room, the rows
/// above left as they are; at room + 1 the row is the first that does not fit, if those above fit, and [`verdict`] names it. (Above a
/// room of 65535 there is no C: 65536 is refused with 7.) With a room of 0 a row fits with no C. The room of row 0 is its D. Of its own
/// words, only D plays a part in a row's room. A higher C takes room from the rows below, and the verdict on them may turn; the last
/// row has none below.
///
/// A table that [`verdict`] turns down has its rooms too, also those of the rows below the one that is named.
///
/// ```
/// use galleypoppy::{rooms, verdict, Refusal};
///
/// // Row 1 asks for 3 ticks and has 2: at tick 4, before row 0's second job comes.
/// let mut table = [1, 2, 4, 4, 1, 1, 0, 2, 3, 5, 5, 1, 1, 0];
/// assert_eq!(verdict(&table, &mut [0; 2]), Err(Refusal::Unschedulable(1)));
/// assert_eq!(rooms(&table, &mut [0; 2]), Ok(&[4, 2][..]));
/// table[8] = 2;
/// assert_eq!(verdict(&table, &mut [0; 2]), Ok(&[2, 4][..]));
/// ```
///
/// # Errors
///
/// Refusals 1, 2, 3, then row by row 4 to 9 in number order, 16, 10; then 13. Never 11.
pub fn rooms<'a>(words: &[u32], room: &'a mut [u32]) -> Result<&'a [u32], Refusal> {
    let rows = ffi::rooms(words, room)?;
    Ok(filled(room, rows as usize))
}
