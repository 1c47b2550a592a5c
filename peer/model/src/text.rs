//! "Task text": reading and writing a table in the house form.

use crate::answer::{refusal, Answer};
use crate::table::{self, Table, ROWS_MAX, ROW_WORDS};

/// The longest accepted text: document 01's 1,384 bytes, and a line `p=` of four
/// bytes for each of 32 rows.
pub const TEXT_MAX: usize = 1512;

/// "for each row the lines id, c, t, d, m, k in that order", "and a seventh text line
/// `p=`" (document 02, 3/14).
pub const KEYS: [&str; ROW_WORDS] = ["id", "c", "t", "d", "m", "k", "p"];

/// The keys of the old form, document 01's own.
pub const OLD_KEYS: [&str; ROW_WORDS - 1] = ["id", "c", "t", "d", "m", "k"];

/// "The text reader holds the lent text and a place in it, and gives one value
/// a call".
pub struct Reader<'a> {
    text: &'a [u8],
    place: usize,
}

impl<'a> Reader<'a> {
    pub fn new(text: &'a [u8]) -> Reader<'a> {
        Reader { text, place: 0 }
    }

    /// The value of a whole line `key=value` with its LF, or the place of the
    /// fault: "the index of the first byte that makes the text so far the
    /// beginning of no text of this form, or the length if it ended early".
    ///
    /// The place only ever moves past bytes that some text of the form has
    /// there, so where it stands when a byte does not do is that index.
    pub fn value(&mut self, key: &str) -> Result<u32, usize> {
        for byte in key.bytes() {
            self.take(byte)?;
        }
        self.take(b'=')?;
        let value = self.number()?;
        self.take(b'\n')?;
        Ok(value)
    }

    /// "nothing after"
    pub fn end(&self) -> Result<(), usize> {
        if self.place == self.text.len() {
            Ok(())
        } else {
            Err(self.place)
        }
    }

    fn take(&mut self, byte: u8) -> Result<(), usize> {
        if self.text.get(self.place) == Some(&byte) {
            self.place += 1;
            Ok(())
        } else {
            Err(self.place)
        }
    }

    fn digit(&mut self) -> Option<u32> {
        let byte = *self.text.get(self.place)?;
        let digit = char::from(byte).to_digit(10)?;
        self.place += 1;
        Some(digit)
    }

    /// "A value is 0, or a non-zero digit followed by at most four digits."
    /// After a 0 and after five digits only the LF can come, and the caller
    /// asks for it.
    fn number(&mut self) -> Result<u32, usize> {
        let Some(mut value) = self.digit() else {
            return Err(self.place);
        };
        if value == 0 {
            return Ok(0);
        }
        for _ in 0..4 {
            let Some(digit) = self.digit() else {
                break;
            };
            value = value * 10 + digit;
        }
        Ok(value)
    }
}

fn fault(place: usize) -> Answer {
    Answer::refused_at(refusal::TEXT_FAULT, place as u64)
}

/// The words of the task text that the reader still has before it: "For text:
/// the first line (12), its value (2, 3), the remaining lines (12), rows (4 to
/// 10)", with 16 among the last. The first line's value is looked at only once the line is whole.
///
/// A row has a line for each of the keys, in their order; a word that has none is 0, so
/// the rows of an old text are even ones.
pub fn read_words(reader: &mut Reader, keys: &[&str]) -> Result<Vec<u32>, Answer> {
    let rows = reader.value("rows").map_err(fault)? as usize;
    if rows == 0 {
        return Err(Answer::refused(refusal::NO_ROWS));
    }
    if rows > ROWS_MAX {
        return Err(Answer::refused(refusal::OVER_32_ROWS));
    }
    let mut words = Vec::with_capacity(rows * ROW_WORDS);
    for _ in 0..rows {
        let mut seven = [0; ROW_WORDS];
        for (word, key) in seven.iter_mut().zip(keys) {
            *word = reader.value(key).map_err(fault)?;
        }
        words.extend(seven);
    }
    reader.end().map_err(fault)?;
    Table::of(&words)?;
    Ok(words)
}

/// Reads a task text into the lent words, seven to a row; the last refusal that
/// can come is 13. The value is the number of rows.
pub fn read(text: &[u8], room: &mut [u32]) -> Answer {
    let words = match read_words(&mut Reader::new(text), &KEYS) {
        Ok(words) => words,
        Err(answer) => return answer,
    };
    let Some(room) = room.get_mut(..words.len()) else {
        return Answer::refused(refusal::ROOM_TOO_SHORT);
    };
    room.copy_from_slice(&words);
    Answer::accepted((words.len() / ROW_WORDS) as u64)
}

/// One `key=value` line with its LF.
pub fn line(out: &mut Vec<u8>, key: &str, value: u64) {
    out.extend_from_slice(format!("{key}={value}\n").as_bytes());
}

/// "key=value lines, each ended by LF. First `rows=N`, then for each row the
/// lines id, c, t, d, m, k in that order, nothing after", with the line p after k.
///
/// The words need not be well formed, so that texts of faulty tables can be
/// made too; words after the last whole row are left out.
pub fn text_of(words: &[u32]) -> Vec<u8> {
    text_in(&KEYS, words)
}

/// The same in the form that has these keys: a row's words after them are left out.
pub fn text_in(keys: &[&str], words: &[u32]) -> Vec<u8> {
    let mut out = Vec::new();
    let (sevens, _) = words.as_chunks::<ROW_WORDS>();
    line(&mut out, "rows", sevens.len() as u64);
    for seven in sevens {
        for (key, word) in keys.iter().zip(seven) {
            line(&mut out, key, u64::from(*word));
        }
    }
    out
}

/// Writes a table's text into the lent bytes: the table's refusals first, then
/// 13. The value is the number of bytes written.
pub fn write(words: &[u32], room: &mut [u8]) -> Answer {
    let answer = table::check(words);
    if !answer.is_accepted() {
        return answer;
    }
    let text = text_of(words);
    let Some(room) = room.get_mut(..text.len()) else {
        return Answer::refused(refusal::ROOM_TOO_SHORT);
    };
    room.copy_from_slice(&text);
    Answer::accepted(text.len() as u64)
}

/// Bytes laid into a room from its start, as far as it goes.
struct Laid<'a> {
    room: &'a mut [u8],
    length: usize,
}

impl Laid<'_> {
    fn bytes(&mut self, bytes: &[u8]) {
        let end = self.length + bytes.len();
        if let Some(room) = self.room.get_mut(self.length..end) {
            room.copy_from_slice(bytes);
        }
        self.length = end;
    }

    /// One `key=value` line with its LF, for a value of up to five digits.
    fn line(&mut self, key: &str, value: u32) {
        self.bytes(key.as_bytes());
        let (mut end, mut rest, mut first) = (*b"=00000\n", value, 6);
        loop {
            first -= 1;
            end[first] = b'0' + (rest % 10) as u8;
            rest /= 10;
            if rest == 0 || first == 1 {
                break;
            }
        }
        end[first - 1] = b'=';
        self.bytes(&end[first - 1..]);
    }
}

/// Digits of a value as they stand in a text.
fn digits(value: u32) -> usize {
    1 + [9, 99, 999, 9_999]
        .iter()
        .filter(|&&end| value > end)
        .count()
}

/// [`write()`] without a text of its own: each line goes straight into the room.
pub fn write_plain(words: &[u32], room: &mut [u8]) -> Answer {
    let answer = table::check(words);
    if !answer.is_accepted() {
        return answer;
    }
    lay_in(&KEYS, words, room)
}

/// Lays the text of a table, in the form that has these keys, straight into the
/// room; its length is counted beforehand.
pub fn lay_in(keys: &[&str], words: &[u32], room: &mut [u8]) -> Answer {
    let (sevens, _) = words.as_chunks::<ROW_WORDS>();
    let lines = || sevens.iter().flat_map(|seven| keys.iter().zip(seven));
    let length_of = |key: &str, value: u32| key.len() + digits(value) + 2;
    let first = length_of("rows", sevens.len() as u32);
    let rest: usize = lines().map(|(key, word)| length_of(key, *word)).sum();
    let Some(room) = room.get_mut(..first + rest) else {
        return Answer::refused(refusal::ROOM_TOO_SHORT);
    };
    let mut laid = Laid { room, length: 0 };
    laid.line("rows", sevens.len() as u32);
    for (key, word) in lines() {
        laid.line(key, *word);
    }
    Answer::accepted((first + rest) as u64)
}
