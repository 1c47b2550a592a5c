//! Texts that end too early or too late, and texts far longer than any that is
//! accepted.

use peer::gen::{long_texts, longest_table, special_texts};
use peer::table::{ROWS_MAX, ROW_WORDS, WORD_MAX};
use peer::text::text_of;

use super::{same_again, same_read, same_read_followed, same_text};
use crate::course::{Compared, Course};
use crate::draw::{any_values, one_row_with, room_of, rubbish_after, sound, widest, TELLING};

/// Rounds of texts far longer than 1,512 bytes.
const FAR: u32 = 2_000;

/// A room for every table that a text can hold.
const ROOM: usize = ROWS_MAX * ROW_WORDS;

/// Every beginning of texts of every number of rows, of the longest that is
/// accepted and of one as long as the form has for 32 rows: alone, and with the
/// rest of the text right after it in memory.
pub fn early(course: &mut Course) -> Compared {
    let mut tables = vec![longest_table(), widest(&mut course.rng)];
    tables.extend((1..=ROWS_MAX).map(|rows| sound(&mut course.rng, rows, WORD_MAX)));
    for words in tables {
        let text = text_of(&words);
        for length in 0..=text.len() {
            let room = room_of(&mut course.rng, ROOM);
            let (cut, rest) = text.split_at(length);
            same_read(course, cut, &room)?;
            if let Some(words) = same_read_followed(course, cut, rest, &room)? {
                same_again(course, &text, &words)?;
            }
        }
    }
    Ok(())
}

/// Every byte after texts of every number of rows, and several: further rows,
/// the text again, rubbish; the rows in range or of any values, and so up to
/// 1,832 bytes before the fault.
pub fn late(course: &mut Course) -> Compared {
    for rows in 1..=ROWS_MAX {
        let well = sound(&mut course.rng, rows, WORD_MAX);
        let nines = vec![99_999; rows * ROW_WORDS];
        for words in [well, any_values(&mut course.rng, rows), nines] {
            let text = text_of(&words);
            same_text(course, &text)?;
            for byte in 0..=255 {
                same_text(course, &[&text[..], &[byte]].concat())?;
            }
            for &byte in TELLING {
                let further = rubbish_after(&mut course.rng);
                same_text(course, &[&text[..], &[byte], &further].concat())?;
            }
            let row = &one_row_with(0, b"1")[7..];
            for further in [&text[..], row, &text[..4], b"\n\n", b"\r\n"] {
                same_text(course, &[&text[..], further].concat())?;
                same_text(course, &[further, &text[..]].concat())?;
            }
        }
    }
    Ok(())
}

/// The second program's texts for every time: each key, value and line end gone
/// wrong once, the limits of the first line with rubbish after it, no bytes, one
/// byte of every value.
pub fn special(course: &mut Course) -> Compared {
    for text in special_texts().iter().chain(&long_texts()) {
        for length in [0, 6, 7, 8, 13, 14, ROOM - 1, ROOM, ROOM + 1] {
            let room = room_of(&mut course.rng, length);
            same_read(course, text, &room)?;
        }
    }
    for byte in 0..=255 {
        same_text(course, &[byte])?;
        for count in [2, 3, 7, 1_512, 1_513, 70_000] {
            same_text(course, &vec![byte; count])?;
        }
    }
    Ok(())
}

/// Whole rows in numbers past 32, tails of thousands of bytes, and lines and
/// values of such length.
pub fn far(course: &mut Course) -> Compared {
    for round in 0..FAR {
        let rng = &mut course.rng;
        let rows = 33 + rng.index(100);
        let said = rng
            .choose(&[0, 1, 31, 32, 33, rows as u32, 99_999])
            .unwrap_or(0);
        let text = text_of(&sound(rng, rows, WORD_MAX));
        let first = text.iter().position(|&byte| byte == b'\n').unwrap_or(0);
        let renamed = [format!("rows={said}").as_bytes(), &text[first..]].concat();
        same_text(course, &renamed)?;
        let rng = &mut course.rng;
        let kept = 1 + rng.index(ROWS_MAX);
        let whole = text_of(&sound(rng, kept, WORD_MAX));
        let long = (round as usize % 20 + 1) * 500;
        let byte = rng.choose(TELLING).unwrap_or(0);
        let at = rng.index(whole.len() + 1);
        let within = [&whole[..at], &vec![byte; long], &whole[at..]].concat();
        same_text(course, &within)?;
        let rubbish = (0..long).map(|_| course.rng.bits() as u8);
        let after: Vec<u8> = whole.iter().copied().chain(rubbish).collect();
        same_text(course, &after)?;
    }
    Ok(())
}
