//! "Task text": reading and writing, every answer and every lent word and byte.
//!
//! A text is read by three: the first program, the second one, and the rule for
//! the place of a fault, [`peer::brute`], which asks of bytes whether they begin
//! some text and has no reader.

mod changes;
mod ends;
mod reads;
mod writes;

use peer::brute;
use peer::table::ROW_WORDS;
use peer::text;

use super::Comparison;
use crate::course::{shown, Compared, Course, Difference};
use crate::draw::{byte_room_of, room, room_of};
use crate::ffi;
use crate::lent::Lent;

/// All that a text can be refused for when the room is long enough.
const READ_REFUSED: [u64; 12] = [0, 2, 3, 4, 5, 6, 7, 8, 9, 10, 12, 16];

pub const ALL: &[Comparison] = &[
    Comparison::drawn(
        "text_read_drawn",
        &[0, 2, 3, 4, 5, 6, 7, 8, 9, 10, 13, 16],
        reads::drawn,
    ),
    Comparison::drawn("text_read_rooms", &[0, 4, 12, 13], reads::rooms),
    Comparison::drawn(
        "text_read_values",
        &[0, 2, 3, 4, 5, 6, 7, 8, 9, 12, 16],
        reads::values,
    ),
    Comparison::drawn("text_read_damaged", &READ_REFUSED, reads::damaged),
    Comparison::drawn(
        "text_changes_every_byte",
        &[0, 2, 3, 4, 12, 16],
        changes::every_byte,
    ),
    Comparison::drawn(
        "text_changes_two_rows",
        &[0, 2, 3, 4, 12],
        changes::two_rows,
    ),
    Comparison::drawn("text_changes_longest", &[0, 3, 4, 12], changes::longest),
    Comparison::drawn("text_changes_lines", &[0, 12], changes::lines),
    Comparison::drawn("text_ends_early", &[0, 12], ends::early),
    Comparison::drawn("text_ends_late", &[0, 4, 12], ends::late),
    Comparison::fixed("text_ends_special", &[0, 2, 3, 12, 16], ends::special),
    Comparison::drawn("text_ends_far", &[2, 3, 12], ends::far),
    Comparison::drawn("text_write_lengths", &[0, 1, 2, 3, 4], writes::lengths),
    Comparison::drawn("text_write_rooms", &[0, 4, 13], writes::rooms),
    Comparison::drawn(
        "text_write_fields",
        &[0, 4, 5, 6, 7, 8, 9, 10, 13, 16],
        writes::fields,
    ),
    Comparison::drawn("text_write_values", &[0, 13], writes::values),
    Comparison::drawn(
        "text_write_drawn",
        &[0, 1, 2, 3, 4, 5, 6, 7, 8, 9, 10, 13, 16],
        writes::drawn,
    ),
];

/// What came of a text that both programs, and the rule, read alike: the words,
/// or nothing.
pub(super) type Words = Result<Option<Vec<u32>>, Difference>;

/// Both readings of a text lent with these bytes right after it, the rule's
/// answer, and every word and byte that was lent.
fn same_read_followed(course: &mut Course, text: &[u8], after: &[u8], room: &[u32]) -> Words {
    let mut lent_text = Lent::followed(&mut course.rng, text, after);
    let mut lent_room = Lent::new(&mut course.rng, room);
    let first = ffi::read_lent(&mut lent_text, &mut lent_room);
    let (mut filled, mut ruled) = (room.to_vec(), room.to_vec());
    let peer = text::read(text, &mut filled);
    let rule = brute::read_into(text, &mut ruled);
    let same = first == peer && lent_text.holds(text) && lent_room.holds(&filled);
    course.settle(peer, same && peer == rule && filled == ruled, || {
        format!(
            "reading of {} bytes, followed by {}:\n{}\nroom before {room:?}\n\
             first {} room {:?}\npeer  {} room {filled:?}\nrule  {} room {ruled:?}\n\
             altered beside the room {:?}\n\
             text after {}\naltered beside the text {:?}",
            text.len(),
            after.escape_ascii(),
            text.escape_ascii(),
            shown(first),
            lent_room.words(),
            shown(peer),
            shown(rule),
            lent_room.altered_beside(),
            lent_text.words().escape_ascii(),
            lent_text.altered_beside(),
        )
    })?;
    filled.truncate(ROW_WORDS * peer.value as usize);
    Ok(peer.is_accepted().then_some(filled))
}

pub(super) fn same_read(course: &mut Course, text: &[u8], room: &[u32]) -> Words {
    same_read_followed(course, text, &[], room)
}

/// Both readings into a drawn room; a text that is accepted is written again by
/// both, byte for byte.
pub(super) fn same_text(course: &mut Course, text: &[u8]) -> Compared {
    let lines = text.iter().filter(|&&byte| byte == b'\n').count();
    let words = lines.saturating_sub(1).min(300);
    let room = room(&mut course.rng, words);
    match same_read(course, text, &room)? {
        Some(words) => same_again(course, text, &words),
        None => Ok(()),
    }
}

/// Writes the words that were read and finds the text that they came from.
fn same_again(course: &mut Course, text: &[u8], words: &[u32]) -> Compared {
    let room = byte_room_of(&mut course.rng, text.len());
    let written = same_write(course, words, &room)?;
    if written.as_deref() == Some(text) {
        return Ok(());
    }
    let (text, written) = (text.escape_ascii(), written.unwrap_or_default());
    Err(Difference(format!(
        "words {words:?} read from\n{text}\nare written again as\n{}",
        written.escape_ascii()
    )))
}

/// Both writings of a table, and every word and byte that was lent for them.
/// The text is handed on if there is one.
pub(super) fn same_write(
    course: &mut Course,
    words: &[u32],
    room: &[u8],
) -> Result<Option<Vec<u8>>, Difference> {
    let mut lent_words = Lent::new(&mut course.rng, words);
    let mut lent_room = Lent::new(&mut course.rng, room);
    let first = ffi::write_lent(&mut lent_words, &mut lent_room);
    let mut filled = room.to_vec();
    let peer = text::write(words, &mut filled);
    let same = first == peer && lent_words.holds(words) && lent_room.holds(&filled);
    course.settle(peer, same, || {
        format!(
            "writing of {words:?}\nroom before, {} bytes: {}\n\
             first {} room {}\npeer  {} room {}\naltered beside the room {:?}\n\
             table after {:?}\naltered beside the table {:?}",
            room.len(),
            room.escape_ascii(),
            shown(first),
            lent_room.words().escape_ascii(),
            shown(peer),
            filled.escape_ascii(),
            lent_room.altered_beside(),
            lent_words.words(),
            lent_words.altered_beside(),
        )
    })?;
    filled.truncate(peer.value as usize);
    Ok(peer.is_accepted().then_some(filled))
}

/// The text of a table, and the table of that text.
pub(super) fn same_there_and_back(course: &mut Course, words: &[u32], room: &[u8]) -> Compared {
    let Some(text) = same_write(course, words, room)? else {
        return Ok(());
    };
    let room = room_of(&mut course.rng, words.len());
    let read = same_read(course, &text, &room)?;
    if read.as_deref() == Some(words) {
        return Ok(());
    }
    let text = text.escape_ascii();
    Err(Difference(format!(
        "{words:?} are written as\n{text}\nand read as {read:?}"
    )))
}
