//! Document 02, 4/14, line by line: a new text is the old one with a line `p=0` after
//! each row's last. No value is read and none is written.

use super::form::{Form, NEW, OLD};
use super::lines::lines;
use super::place_for;
use crate::answer::{refusal, Answer};
use crate::convert::Way;

/// The line that the forms differ by.
const EVEN_LINE: &[u8] = b"p=0\n";

/// The lines of the text's rows, row by row. The text is a whole one of the form.
fn rows<'a>(form: &Form, text: &'a [u8]) -> Vec<Vec<&'a [u8]>> {
    let all: Vec<&[u8]> = lines(text).skip(1).collect();
    let rows = all.chunks(form.row_lines());
    rows.map(<[&[u8]]>::to_vec).collect()
}

/// "reads the old text and writes the new one with `p=0`"
fn to_new(text: &[u8]) -> Result<Vec<Vec<&[u8]>>, Answer> {
    OLD.accepted(text, place_for(text))?;
    let mut rows = rows(&OLD, text);
    rows.iter_mut().for_each(|row| row.push(EVEN_LINE));
    Ok(rows)
}

/// "turns a new text into an old one when every p is 0"; "17, a row with p 1".
fn to_old(text: &[u8]) -> Result<Vec<Vec<&[u8]>>, Answer> {
    NEW.accepted(text, place_for(text))?;
    let mut rows = rows(&NEW, text);
    for (at, row) in rows.iter_mut().enumerate() {
        if row.pop() != Some(EVEN_LINE) {
            return Err(Answer::refused_at(refusal::P_IS_1, at as u64));
        }
    }
    Ok(rows)
}

/// The text carried over, its first line as it was.
pub fn carried(way: Way, text: &[u8]) -> Result<Vec<u8>, Answer> {
    let rows = match way {
        Way::ToNew => to_new(text)?,
        Way::ToOld => to_old(text)?,
    };
    let first = lines(text).take(1);
    let all: Vec<&[u8]> = first.chain(rows.concat()).collect();
    Ok(all.concat())
}

/// The same into a lent room, and the room as it is left.
pub fn convert(way: Way, text: &[u8], room: &mut [u8]) -> Answer {
    match carried(way, text) {
        Err(answer) => answer,
        Ok(carried) if carried.len() > room.len() => Answer::refused(refusal::ROOM_TOO_SHORT),
        Ok(carried) => {
            for (at, byte) in carried.iter().enumerate() {
                room[at] = *byte;
            }
            Answer::accepted(carried.len() as u64)
        }
    }
}
