//! "17, a row with p 1, with its row": new texts only.

use peer::convert::Way;
use peer::pattern::RED;
use peer::table::{ROWS_MAX, ROW_WORDS};
use peer::text::text_of;

use super::inputs::even_rows;
use super::same_text;
use crate::course::{Compared, Course};
use crate::draw::{faults_in, FAULTS};

/// Drawn sets of rows for each size of table.
const SETS: u32 = 30;

/// Most rows of a table of which every set of rows is tried.
const FEW: usize = 8;

/// The place of p of a row.
fn p_of(row: usize) -> usize {
    row * ROW_WORDS + ROW_WORDS - 1
}

/// The text of the table with the rows of a set deeply-red, bit 0 for row 0.
fn with_red(words: &[u32], set: u64) -> Vec<u8> {
    let mut words = words.to_vec();
    for row in 0..words.len() / ROW_WORDS {
        if set >> row & 1 == 1 {
            words[p_of(row)] = RED;
        }
    }
    text_of(&words)
}

/// Each row of tables of every size the only deeply-red one, and the first of several:
/// it and all after it.
pub fn rows(course: &mut Course) -> Compared {
    for rows in 1..=ROWS_MAX {
        let words = even_rows(&mut course.rng, rows);
        for row in 0..rows {
            for set in [1 << row, u64::MAX << row] {
                same_text(course, Way::ToOld, &with_red(&words, set))?;
            }
        }
    }
    Ok(())
}

/// Every set of rows in small tables, and drawn ones in tables of every size.
pub fn sets(course: &mut Course) -> Compared {
    for rows in 1..=FEW {
        let words = even_rows(&mut course.rng, rows);
        for set in 0..1 << rows {
            same_text(course, Way::ToOld, &with_red(&words, set))?;
        }
    }
    for rows in 1..=ROWS_MAX {
        let words = even_rows(&mut course.rng, rows);
        for round in 0..SETS {
            let bits = course.rng.bits();
            let set = match round % 3 {
                0 => bits,
                1 => bits & course.rng.bits() & course.rng.bits(),
                _ => 0,
            };
            same_text(course, Way::ToOld, &with_red(&words, set))?;
        }
    }
    Ok(())
}

/// A deeply-red row with a fault in an earlier row, in itself and in a later one: each of
/// the faults of a row, p above 1 among them, and a fault of the text's last line.
pub fn faults(course: &mut Course) -> Compared {
    for rows in [1, 2, 3, 6, ROWS_MAX] {
        let well = even_rows(&mut course.rng, rows);
        for (red, faulty) in (0..rows).flat_map(|red| (0..rows).map(move |row| (red, row))) {
            let mut words = well.clone();
            words[p_of(red)] = RED;
            let text = text_of(&words);
            same_text(course, Way::ToOld, &text[..text.len() - 1])?;
            for fault in 0..FAULTS {
                let mut words = words.clone();
                let over = course.rng.word(0, 255);
                let row = &mut words[faulty * ROW_WORDS..(faulty + 1) * ROW_WORDS];
                faults_in(row, 1 << fault, over, well[0]);
                same_text(course, Way::ToOld, &text_of(&words))?;
            }
        }
    }
    Ok(())
}
