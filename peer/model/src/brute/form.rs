//! A form of task text, by its keys alone: what begins a text of it, where a fault is,
//! and what is refused.

use super::lines::{begun_line, lines, whole_line};
use crate::answer::{refusal, Answer};
use crate::table::{self, ROW_WORDS};

/// The keys of a row's lines, each with its `=`.
pub struct Form(&'static [&'static [u8]]);

/// Document 01's: "First `rows=N`, then for each row the lines id, c, t, d, m, k".
pub const OLD: Form = Form(&[b"id=", b"c=", b"t=", b"d=", b"m=", b"k="]);

/// The same and p (document 02, 3/14).
pub const NEW: Form = Form(&[b"id=", b"c=", b"t=", b"d=", b"m=", b"k=", b"p="]);

/// A way to find the place of a fault.
pub type Place = fn(&Form, &[u8]) -> Option<usize>;

impl Form {
    /// Lines of a row.
    pub fn row_lines(&self) -> usize {
        self.0.len()
    }

    /// The key with its `=` that a line of this number opens with; line 0 is the
    /// first.
    fn opening(&self, number: usize) -> &'static [u8] {
        match number.checked_sub(1) {
            None => b"rows=",
            Some(after) => self.0[after % self.row_lines()],
        }
    }

    /// The value of the first line, if that line is whole.
    fn rows(&self, text: &[u8]) -> Option<u32> {
        whole_line(self.opening(0), lines(text).next()?)
    }

    /// Lines of a text with this value on the first one.
    fn lines_due(&self, rows: u32) -> usize {
        1 + self.row_lines() * rows as usize
    }

    /// Whether the bytes are the beginning of some text of the form: "any value may
    /// stand after `rows=` on the first line", and the lines of each of that many rows
    /// follow it.
    pub fn is_beginning(&self, text: &[u8]) -> bool {
        let due = self.rows(text).map_or(1, |rows| self.lines_due(rows));
        lines(text).enumerate().all(|(number, line)| {
            let does = if line.ends_with(b"\n") {
                whole_line(self.opening(number), line).is_some()
            } else {
                begun_line(self.opening(number), line)
            };
            does && number < due
        })
    }

    /// Whether the bytes are a whole text of the form.
    pub fn is_text(&self, text: &[u8]) -> bool {
        let due = self.rows(text).map(|rows| self.lines_due(rows));
        self.is_beginning(text) && text.ends_with(b"\n") && due == Some(lines(text).count())
    }

    /// The place of the fault, or `None` when the bytes are a whole text: every
    /// length is tried, from the shortest.
    pub fn place(&self, text: &[u8]) -> Option<usize> {
        if self.is_text(text) {
            return None;
        }
        let first = (0..text.len()).find(|&at| !self.is_beginning(&text[..=at]));
        Some(first.unwrap_or(text.len()))
    }

    /// The same place in fewer steps, for long texts. What begins the beginning of a
    /// text begins that text, so the lengths that do come first, and halving finds
    /// the last of them.
    pub fn place_by_halves(&self, text: &[u8]) -> Option<usize> {
        if self.is_text(text) {
            return None;
        }
        // No bytes at all begin every text.
        let (mut begins, mut begins_none) = (0, text.len() + 1);
        while begins + 1 < begins_none {
            let middle = begins + (begins_none - begins) / 2;
            if self.is_beginning(&text[..middle]) {
                begins = middle;
            } else {
                begins_none = middle;
            }
        }
        Some(begins)
    }

    /// The values after the first line of a whole text, and for a row without a line p
    /// the 0 that stands for it.
    pub fn words(&self, text: &[u8]) -> Vec<u32> {
        let numbered = lines(text).enumerate().skip(1);
        let value = |(number, line)| whole_line(self.opening(number), line);
        let values: Vec<u32> = numbered.filter_map(value).collect();
        let none = [0; ROW_WORDS];
        let rows = values.chunks(self.row_lines());
        rows.flat_map(|row| [row, &none[self.row_lines()..]].concat())
            .collect()
    }

    /// The words of an accepted text, or the answer of a reader with room enough:
    /// "For text: the first line (12), its value (2, 3), the remaining lines (12),
    /// rows (4 to 10)", with 16 among the last. The first line's fault is the text's.
    pub fn accepted(&self, text: &[u8], place: Place) -> Result<Vec<u32>, Answer> {
        match self.rows(text) {
            Some(0) => return Err(Answer::refused(refusal::NO_ROWS)),
            Some(rows) if rows > 32 => return Err(Answer::refused(refusal::OVER_32_ROWS)),
            _ => (),
        }
        if let Some(place) = place(self, text) {
            return Err(Answer::refused_at(refusal::TEXT_FAULT, place as u64));
        }
        let words = self.words(text);
        let answer = table::check(&words);
        answer.is_accepted().then_some(words).ok_or(answer)
    }
}
