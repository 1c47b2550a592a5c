//! The place of a text fault, by the sentence that defines it and by nothing of
//! the reader's: "The place of a text fault is the index of the first byte that
//! makes the text so far the beginning of no text of this form, or the length
//! if it ended early".
//!
//! All 100,000 ends of a line, a value with its LF, are written out, and every
//! beginning of every one of them is kept in a set. Whether bytes are the
//! beginning of some text is then asked afresh for each length, line by line.
//!
//! [`spare`] does the same for the figure of that name, [`held`] for the number of met
//! marks, and [`pattern`], [`verdict`] and [`rooms`] count jobs where the rules have a
//! formula.
//! [`convert`] carries texts from one form to the other by whole lines, and [`replay`]
//! lists every release before a tick is run.

pub mod convert;
mod form;
pub mod held;
mod lines;
pub mod pattern;
pub mod replay;
pub mod rooms;
pub mod spare;
pub mod verdict;

use crate::answer::{refusal, Answer};
use crate::table::ROW_WORDS;
use form::{Form, Place, NEW};
use lines::{begun_line, lines, whole_line};

/// Whether the bytes are the beginning of some text.
pub fn is_beginning(text: &[u8]) -> bool {
    NEW.is_beginning(text)
}

/// Whether the bytes are a whole text.
pub fn is_text(text: &[u8]) -> bool {
    NEW.is_text(text)
}

/// The place of the fault, or `None` when the bytes are a whole text.
pub fn place(text: &[u8]) -> Option<usize> {
    NEW.place(text)
}

/// The same place in fewer steps, for long texts.
pub fn place_by_halves(text: &[u8]) -> Option<usize> {
    NEW.place_by_halves(text)
}

/// The values after the first line of a whole text.
pub fn words(text: &[u8]) -> Vec<u32> {
    NEW.words(text)
}

/// The answer of a reader with room enough.
pub fn read(text: &[u8]) -> Answer {
    match NEW.accepted(text, Form::place) {
        Ok(words) => Answer::accepted((words.len() / ROW_WORDS) as u64),
        Err(answer) => answer,
    }
}

/// Bytes of a text whose every length is tried by [`read_into`].
const SHORT: usize = 90;

/// The place by every length where the text is short, by halves where it is not.
fn place_for(text: &[u8]) -> Place {
    if text.len() <= SHORT {
        Form::place
    } else {
        Form::place_by_halves
    }
}

/// The answer of a reader into a lent room, and the room as it leaves it.
pub fn read_into(text: &[u8], room: &mut [u32]) -> Answer {
    let words = match NEW.accepted(text, place_for(text)) {
        Ok(words) => words,
        Err(answer) => return answer,
    };
    if words.len() > room.len() {
        return Answer::refused(refusal::ROOM_TOO_SHORT);
    }
    for (at, word) in words.iter().enumerate() {
        room[at] = *word;
    }
    Answer::accepted((words.len() / ROW_WORDS) as u64)
}

/// What the printing program refuses, by the same sentences: its own first line
/// by the value rule, then the task text with its places moved on by the length
/// of that line. `None` when the input is accepted.
pub fn report_refusal(input: &[u8]) -> Option<Answer> {
    let first_line = lines(input).next().unwrap_or_default();
    if whole_line(b"ticks=", first_line).is_none() {
        let first = (0..input.len()).find(|&at| !begun_line(b"ticks=", &input[..=at]));
        let place = first.unwrap_or(input.len());
        return Some(Answer::refused_at(refusal::TEXT_FAULT, place as u64));
    }
    let mut answer = read(&input[first_line.len()..]);
    if answer.refusal == refusal::TEXT_FAULT {
        answer.value += first_line.len() as u64;
    }
    (!answer.is_accepted()).then_some(answer)
}
