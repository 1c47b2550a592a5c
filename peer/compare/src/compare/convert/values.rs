//! Values in and out of range, in each field of each row.

use peer::convert::Way;
use peer::gen::form_read;
use peer::table::{ROWS_MAX, ROW_WORDS};
use peer::text::{KEYS, OLD_KEYS};

use super::inputs::even_rows;
use super::same_text;
use crate::compare::table::each_word_moved;
use crate::course::{Compared, Course};
use crate::draw::{faults_in, miswritten, nameable, FAULTS, VALUE_MAX};

/// Tables that a text can name, with faults and without.
const NAMEABLE: u32 = 5_000;

/// Each word of tables of several sizes, moved to where a text can name it; and drawn
/// faults in several fields at once.
pub fn fields(course: &mut Course, way: Way) -> Compared {
    for rows in [1, 2, 5] {
        let well = even_rows(&mut course.rng, rows);
        each_word_moved(&well, |words| {
            let nameable = words.iter().all(|word| *word <= VALUE_MAX);
            let is_p = words.iter().skip(ROW_WORDS - 1).step_by(ROW_WORDS);
            let even = is_p.copied().all(|p| p == 0);
            // An old text says nothing of p, so a moved one is no other text.
            match nameable && (even || way == Way::ToOld) {
                true => same_text(course, way, &form_read(way, words)),
                false => Ok(()),
            }
        })?;
    }
    for _ in 0..NAMEABLE {
        let words = nameable(&mut course.rng);
        same_text(course, way, &form_read(way, &words))?;
    }
    each_row(course, way)
}

/// Each fault of a row, on either side of its range, in each row of a full table.
fn each_row(course: &mut Course, way: Way) -> Compared {
    let well = even_rows(&mut course.rng, ROWS_MAX);
    for (row, fault) in (0..ROWS_MAX).flat_map(|row| (0..FAULTS).map(move |fault| (row, fault))) {
        for over in [0, u32::MAX] {
            let mut words = well.clone();
            let seven = &mut words[row * ROW_WORDS..(row + 1) * ROW_WORDS];
            faults_in(seven, 1 << fault, over, well[0]);
            same_text(course, way, &form_read(way, &words))?;
        }
    }
    Ok(())
}

/// A text of one row in which a line has this for its value: line 0 is the first, p is
/// 0, and the other values are 1.
fn one_row_with(way: Way, line: usize, value: &[u8]) -> Vec<u8> {
    let keys: &[&str] = match way {
        Way::ToNew => &OLD_KEYS,
        Way::ToOld => &KEYS,
    };
    let mut out = Vec::with_capacity(64);
    for (number, key) in ["rows"].iter().chain(keys).enumerate() {
        out.extend_from_slice(key.as_bytes());
        out.push(b'=');
        out.extend_from_slice(match (number, *key) {
            (number, _) if number == line => value,
            (_, "p") => b"0",
            _ => b"1",
        });
        out.push(b'\n');
    }
    out
}

/// Every value on one of the lines, the first and the limits on each of them; and each
/// miswritten on a drawn line.
pub fn every(course: &mut Course, way: Way) -> Compared {
    let lines = match way {
        Way::ToNew => ROW_WORDS,
        Way::ToOld => ROW_WORDS + 1,
    };
    for value in 0..=VALUE_MAX {
        let all = value <= 66 || (65_530..65_540).contains(&value) || value > 99_990;
        let drawn = course.rng.index(lines);
        for line in (0..lines).filter(|line| all || *line == drawn) {
            let text = one_row_with(way, line, value.to_string().as_bytes());
            same_text(course, way, &text)?;
        }
        if value % 3 == 0 {
            let line = course.rng.index(lines);
            let text = one_row_with(way, line, &miswritten(&mut course.rng, value));
            same_text(course, way, &text)?;
        }
    }
    Ok(())
}
