//! Task text, and the printing program as a function.

use crate::{ffi, filled, Refusal, TASK_WORDS};

/// Bytes of the longest task text that is accepted.
pub const TEXT_BYTES: usize = 1512;

/// Bytes of the longest old text: what [`to_new`] reads, and [`to_old`] writes.
pub const OLD_TEXT_BYTES: usize = 1384;

/// Bytes of a room that is always enough for [`report`].
pub const REPORT_BYTES: usize = 5632;

/// Reads a task text, of a row the lines id, c, t, d, m, k, p: the table, seven words a row, from the start of the room.
/// [`TABLE_WORDS`](crate::TABLE_WORDS) words are room for every table. A text that was accepted before 3/14, with no line p, is
/// refused with 12; [`to_new`] makes of it one that is read.
///
/// ```
/// use galleypoppy::{read, Refusal};
///
/// let mut room = [0; 7];
/// assert_eq!(read(b"rows=1\nid=7\nc=1\nt=2\nd=2\nm=1\nk=1\np=0\n", &mut room), Ok(&[7, 1, 2, 2, 1, 1, 0][..]));
/// assert_eq!(read(b"rows=1\nid=07\n", &mut room), Err(Refusal::Text(11)));
/// ```
///
/// # Errors
///
/// Refusals 12 for the first line, 2 and 3 for its value, 12 for the remaining lines, then row by row 4 to 9 in number order,
/// 16, 10; then 13.
pub fn read<'a>(text: &[u8], room: &'a mut [u32]) -> Result<&'a [u32], Refusal> {
    let rows = ffi::read(text, room)?;
    Ok(filled(room, rows as usize * TASK_WORDS))
}

/// Writes the task text of a table from the start of the room. [`TEXT_BYTES`] bytes are room for every table.
///
/// # Errors
///
/// Refusals 1, 2, 3, then row by row 4 to 9 in number order, 16, 10; then 13.
pub fn write<'a>(words: &[u32], room: &'a mut [u8]) -> Result<&'a [u8], Refusal> {
    let length = ffi::write(words, room)?;
    Ok(filled(room, length as usize))
}

/// Carries an old task text over: reads a text as it was before 3/14, of a row the lines id, c, t, d, m, k, and writes the text of
/// the same rows, each with a last line `p=0`, from the start of the room. [`TEXT_BYTES`] bytes are room for every table. From the
/// text written, [`to_old`] makes the one that was read, byte for byte.
///
/// ```
/// use galleypoppy::{to_new, to_old, Refusal, OLD_TEXT_BYTES, TEXT_BYTES};
///
/// # fn main() -> Result<(), Refusal> {
/// let old = b"rows=1\nid=7\nc=1\nt=2\nd=2\nm=1\nk=1\n";
/// let mut room = [0; TEXT_BYTES];
/// let new = to_new(old, &mut room)?;
/// assert_eq!(new, b"rows=1\nid=7\nc=1\nt=2\nd=2\nm=1\nk=1\np=0\n");
/// assert_eq!(to_old(new, &mut [0; OLD_TEXT_BYTES])?, old);
/// # Ok(())
/// # }
/// ```
///
/// # Errors
///
/// Refusals 12 for the first line, 2 and 3 for its value, 12 for the remaining lines, then row by row 4 to 10 in number order; then
/// 13.
pub fn to_new<'a>(text: &[u8], room: &'a mut [u8]) -> Result<&'a [u8], Refusal> {
    let length = ffi::to_new(text, room)?;
    Ok(filled(room, length as usize))
}

/// Carries a task text back to the old form: reads a text as [`read`] does and, if p is 0 in every row, writes the text of the same
/// rows with no lines p, from the start of the room. [`OLD_TEXT_BYTES`] bytes are room for every table. From the text written,
/// [`to_new`] makes the one that was read, byte for byte.
///
/// ```
/// use galleypoppy::{to_old, Refusal, OLD_TEXT_BYTES};
///
/// let deeply_red = b"rows=1\nid=7\nc=1\nt=2\nd=2\nm=1\nk=1\np=1\n";
/// assert_eq!(to_old(deeply_red, &mut [0; OLD_TEXT_BYTES]), Err(Refusal::NotOld(0)));
/// ```
///
/// # Errors
///
/// Refusals 12 for the first line, 2 and 3 for its value, 12 for the remaining lines, then row by row 4 to 9 in number order,
/// 16, 10; then 17, with the first row whose p is 1; then 13.
pub fn to_old<'a>(text: &[u8], room: &'a mut [u8]) -> Result<&'a [u8], Refusal> {
    let length = ffi::to_old(text, room)?;
    Ok(filled(room, length as usize))
}

/// The printing program: from its input, a line `ticks=N` and a task text, to all that it prints, from the start of the room. A
/// refusal of the input is printed too. Since 7/14 a line `room=` follows the line `r=` of every row, with what
/// [`rooms`](crate::rooms) tells of it, also in a table turned down. [`REPORT_BYTES`] bytes are always enough.
///
/// ```
/// let mut room = [0; galleypoppy::REPORT_BYTES];
/// assert_eq!(galleypoppy::report(b"ticks=5\nrows=0\n", &mut room), Ok(&b"refused=2\n"[..]));
/// ```
///
/// # Errors
///
/// Refusal 13.
pub fn report<'a>(input: &[u8], room: &'a mut [u8]) -> Result<&'a [u8], Refusal> {
    let length = ffi::report(input, room)?;
    Ok(filled(room, length as usize))
}
