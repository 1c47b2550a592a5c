//! Small changes to good texts, each at every place.

use peer::gen::longest_table;
use peer::table::ROWS_MAX;
use peer::text::text_of;

use super::same_text;
use crate::course::{Compared, Course};
use crate::draw::{any_values, every_change, one_moved, short_text, sound, widest, TELLING};

/// Texts of one row, each byte of which takes every value.
const ONE_ROW: u32 = 6;

/// Texts of two rows, for telling bytes.
const TWO_ROWS: u32 = 16;

/// Texts of any number of rows whose lines are moved about.
const MOVED: u32 = 200;

/// Every byte in place of each, and before each and at the end.
pub fn every_byte(course: &mut Course) -> Compared {
    let every: Vec<u8> = (0..=255).collect();
    for _ in 0..ONE_ROW {
        let text = short_text(&mut course.rng, 1);
        same_changed(course, &text, &every)?;
    }
    Ok(())
}

/// The same with telling bytes, in texts of two rows and of any values.
pub fn two_rows(course: &mut Course) -> Compared {
    for round in 0..TWO_ROWS {
        let text = match round % 2 {
            0 => short_text(&mut course.rng, 2),
            _ => text_of(&any_values(&mut course.rng, 2)),
        };
        same_changed(course, &text, TELLING)?;
    }
    Ok(())
}

/// The same with few bytes, in texts of 32 rows: the longest that is accepted,
/// 1,512 bytes, the longest of the form, 1,832 bytes, and a drawn one.
pub fn longest(course: &mut Course) -> Compared {
    let drawn = sound(&mut course.rng, ROWS_MAX, 65_535);
    for words in [longest_table(), widest(&mut course.rng), drawn] {
        let telling = [b'0', b'6', b'9', b'=', b'\n', b'\r', b'd', 0, 255];
        same_changed(course, &text_of(&words), &telling)?;
    }
    Ok(())
}

/// Every such change of a text.
fn same_changed(course: &mut Course, text: &[u8], bytes: &[u8]) -> Compared {
    for changed in every_change(text, bytes) {
        same_text(course, &changed)?;
    }
    Ok(())
}

/// Lines left out, said twice, put in from elsewhere, and changed about, in
/// texts of any number of rows.
pub fn lines(course: &mut Course) -> Compared {
    for _ in 0..MOVED {
        let rows = 1 + course.rng.index(ROWS_MAX);
        let text = text_of(&sound(&mut course.rng, rows, 65_535));
        let lines: Vec<&[u8]> = text.split_inclusive(|&byte| byte == b'\n').collect();
        for at in 0..lines.len() {
            let moved = one_moved(&mut course.rng, &lines, at);
            same_text(course, &moved.concat())?;
        }
    }
    Ok(())
}
