//! Texts of the other form, and texts of both at once.

use peer::convert::Way;
use peer::gen::{form_read, mixed_forms};
use peer::table::{ROWS_MAX, ROW_WORDS};

use super::inputs::{even_rows, lines};
use super::same_text;
use crate::course::{Compared, Course};

/// Texts of each number of rows whose rows are drawn of either form.
const MIXED: u32 = 20;

/// Most rows of a text of which every row is tried in either form.
const FEW: usize = 6;

/// The fewest lines that are whole rows in either form: 42 are seven old rows, and six
/// new ones.
const LINES: usize = ROW_WORDS * (ROW_WORDS - 1);

pub fn forms(course: &mut Course, way: Way) -> Compared {
    for rows in 1..=ROWS_MAX {
        let words = even_rows(&mut course.rng, rows);
        same_text(course, way, &form_read(way, &words))?;
        same_text(course, way, &form_read(way.back(), &words))?;
        for _ in 0..MIXED {
            let text = mixed_forms(&mut course.rng, &words);
            same_text(course, way, &text)?;
        }
    }
    for rows in 1..=FEW {
        let words = even_rows(&mut course.rng, rows);
        for sevens in 0..1 << rows {
            same_text(course, way, &in_forms(&words, sevens))?;
        }
    }
    as_many_lines(course, way)
}

/// The text of a table, with the line p in the rows that have a bit in `sevens`, bit 0 for
/// row 0.
fn in_forms(words: &[u32], sevens: u32) -> Vec<u8> {
    let text = form_read(Way::ToOld, words);
    let lines = lines(&text).into_iter().enumerate();
    let kept = lines.filter(|(number, _)| {
        let row = number.saturating_sub(1) / ROW_WORDS;
        let is_p = *number > 0 && number % ROW_WORDS == 0;
        !is_p || sevens >> row & 1 == 1
    });
    kept.flat_map(|(_, line)| line).copied().collect()
}

/// Texts with as many lines as the first line asks for in the form read, all of them
/// lines of the other form.
fn as_many_lines(course: &mut Course, way: Way) -> Compared {
    for multiple in 1..=4 {
        let words = even_rows(&mut course.rng, ROWS_MAX);
        for form in [way, way.back()] {
            let text = form_read(form, &words);
            let all = lines(&text);
            let taken = all[1..].iter().take(LINES * multiple);
            let rest: Vec<u8> = taken.flat_map(|line| line.iter().copied()).collect();
            for rows in [6 * multiple, 7 * multiple] {
                let line = format!("rows={rows}\n").into_bytes();
                same_text(course, way, &[line, rest.clone()].concat())?;
            }
        }
    }
    Ok(())
}
