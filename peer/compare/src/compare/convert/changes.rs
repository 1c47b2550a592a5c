//! Texts of either form, changed here and there.

use peer::convert::Way;
use peer::gen::{carried_text, even, form_read, longest_table, special_texts};
use peer::table::ROWS_MAX;

use super::inputs::{good, lines as lines_of, short};
use super::same_text;
use crate::course::{Compared, Course};
use crate::draw::{any_values, every_change, one_moved, with_crs, TELLING};

/// Texts with up to three damages.
const DAMAGED: u32 = 60_000;

/// Texts of one row, each byte of which takes every value.
const ONE_ROW: u32 = 2;

/// Texts of two rows, for telling bytes.
const TWO_ROWS: u32 = 4;

/// Texts of any number of rows whose lines are moved about, and with CRs.
const MOVED: u32 = 60;

/// Up to three damages of any kind, and the texts for every time.
pub fn damaged(course: &mut Course, way: Way) -> Compared {
    for _ in 0..DAMAGED {
        let text = carried_text(&mut course.rng, way);
        same_text(course, way, &text)?;
    }
    for text in special_texts() {
        same_text(course, way, &text)?;
        let mut six = lines_of(&text);
        six.retain(|line| !line.starts_with(b"p"));
        same_text(course, way, &six.concat())?;
    }
    Ok(())
}

/// Every change of a text by one of these bytes, and up to three bytes taken out.
fn same_changed(course: &mut Course, way: Way, text: &[u8], bytes: &[u8]) -> Compared {
    for changed in every_change(text, bytes) {
        same_text(course, way, &changed)?;
    }
    Ok(())
}

/// Every byte in place of each, and before each and at the end.
pub fn every_byte(course: &mut Course, way: Way) -> Compared {
    let every: Vec<u8> = (0..=255).collect();
    for _ in 0..ONE_ROW {
        let text = short(&mut course.rng, way, 1);
        same_changed(course, way, &text, &every)?;
    }
    Ok(())
}

/// The same with telling bytes in texts of two rows, and with a few in the longest.
pub fn telling(course: &mut Course, way: Way) -> Compared {
    for round in 0..TWO_ROWS {
        let text = match round % 2 {
            0 => short(&mut course.rng, way, 2),
            _ => form_read(way, &any_values(&mut course.rng, 2)),
        };
        same_changed(course, way, &text, TELLING)?;
    }
    let longest = form_read(way, &even(&longest_table()));
    same_changed(course, way, &longest, b"01\np")
}

/// Lines left out, said twice, put in from elsewhere and changed about; CRs.
pub fn lines(course: &mut Course, way: Way) -> Compared {
    for _ in 0..MOVED {
        let rows = 1 + course.rng.index(ROWS_MAX);
        let text = good(&mut course.rng, way, rows);
        let lines = lines_of(&text);
        for at in 0..lines.len() {
            let moved = one_moved(&mut course.rng, &lines, at);
            same_text(course, way, &moved.concat())?;
        }
        let crs = with_crs(&mut course.rng, &text);
        same_text(course, way, &crs)?;
    }
    Ok(())
}
