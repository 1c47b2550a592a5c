//! The line `p=`: gone wrong in each way, with every value, and in the longest text.

use peer::dispatch::P;
use peer::gen::{longest_table, seventh_line_texts};
use peer::pattern::{EVEN, RED};
use peer::table::{ROWS_MAX, ROW_WORDS};
use peer::text::{text_of, TEXT_MAX};

use super::super::report::same_report;
use super::super::text::{same_read, same_text, same_write};
use crate::course::{Compared, Course, Difference};
use crate::draw::{byte_room_of, miswritten, one_row_with, room_of, sound, VALUE_MAX};

/// Rounds of texts whose lines p are moved about.
const MOVED: u32 = 300;

/// A text, and an input of the printing program that goes on with it.
fn same_both(course: &mut Course, text: &[u8]) -> Compared {
    same_text(course, text)?;
    let ticks = course.rng.word(0, 40);
    let line = format!("ticks={ticks}\n").into_bytes();
    same_report(course, &[&line, text].concat())
}

/// The second program's texts of the line, each into rooms around the one needed; and
/// texts of drawn tables with a line p left out, said twice, changed, or put elsewhere.
pub fn lines(course: &mut Course) -> Compared {
    for text in seventh_line_texts() {
        for length in [0, 2 * ROW_WORDS - 1, 2 * ROW_WORDS, 2 * ROW_WORDS + 1] {
            let room = room_of(&mut course.rng, length);
            same_read(course, &text, &room)?;
        }
        same_both(course, &text)?;
    }
    for _ in 0..MOVED {
        let rows = 1 + course.rng.index(4);
        let text = text_of(&sound(&mut course.rng, rows, 99));
        let lines: Vec<&[u8]> = text.split_inclusive(|&byte| byte == b'\n').collect();
        for row in 0..rows {
            moved(course, &lines, ROW_WORDS * (row + 1))?;
        }
    }
    Ok(())
}

/// The line at this place left out, said twice, in other words, and put elsewhere.
fn moved(course: &mut Course, lines: &[&[u8]], at: usize) -> Compared {
    let mut without = lines.to_vec();
    let line = without.remove(at);
    same_both(course, &without.concat())?;
    let mut twice = lines.to_vec();
    twice.insert(at, line);
    same_both(course, &twice.concat())?;
    for other in [
        &b"P=1\n"[..],
        b"p=2\n",
        b"p=01\n",
        b"p=\n",
        b"p=65535\n",
        b"p=0\n",
    ] {
        let mut changed = lines.to_vec();
        changed[at] = other;
        same_both(course, &changed.concat())?;
    }
    for to in 0..=without.len() {
        let mut elsewhere = without.clone();
        elsewhere.insert(to, line);
        same_both(course, &elsewhere.concat())?;
    }
    Ok(())
}

/// Every value on the line p of a row, and each miswritten.
pub fn values(course: &mut Course) -> Compared {
    for value in 0..=VALUE_MAX {
        let text = one_row_with(ROW_WORDS, value.to_string().as_bytes());
        same_text(course, &text)?;
        if value % 7 == 0 {
            let text = one_row_with(ROW_WORDS, &miswritten(&mut course.rng, value));
            same_both(course, &text)?;
        }
    }
    Ok(())
}

/// "The longest accepted text" is now 1,512 bytes whatever the patterns are: written
/// into rooms of that length and one short, and read back into rooms of 224 words and
/// one short.
pub fn longest(course: &mut Course) -> Compared {
    for patterns in [
        0,
        u32::MAX,
        0x5555_5555,
        0x8000_0001,
        course.rng.bits() as u32,
    ] {
        let mut words = longest_table();
        for row in 0..ROWS_MAX {
            let red = patterns >> row & 1 == 1;
            words[row * ROW_WORDS + P] = if red { RED } else { EVEN };
        }
        let text = text_of(&words);
        if text.len() != TEXT_MAX || TEXT_MAX != 1_512 {
            return Err(Difference(format!("{} bytes, not 1,512", text.len())));
        }
        for length in [TEXT_MAX - 1, TEXT_MAX, TEXT_MAX + 1, 1_384, 0] {
            let room = byte_room_of(&mut course.rng, length);
            let written = same_write(course, &words, &room)?;
            if written.is_some() != (length >= TEXT_MAX) {
                return Err(Difference(format!("{length} bytes of room, {written:?}")));
            }
        }
        for length in [words.len() - 1, words.len(), words.len() + 1, 192] {
            let room = room_of(&mut course.rng, length);
            let read = same_read(course, &text, &room)?;
            if read.is_some() != (length >= words.len()) {
                return Err(Difference(format!("{length} words of room, {read:?}")));
            }
        }
    }
    Ok(())
}
