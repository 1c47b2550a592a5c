//! There and back: drawn tables, and those at the limits.

use peer::convert::{Way, OLD_TEXT_MAX};
use peer::gen::{even, form_read, longest_table, table};
use peer::pattern::RED;
use peer::table::{ROWS_MAX, ROW_WORDS, WORD_MAX};
use peer::text::{text_of, TEXT_MAX};

use super::{same_back, same_into, same_text};
use crate::course::{Compared, Course, Difference};
use crate::draw::{byte_room_of, sound};

/// Drawn tables, on either way.
const DRAWN: u32 = 8_000;

/// Tables of both patterns.
const RED_OR_EVEN: u32 = 6_000;

/// Well-formed tables with every row even.
pub fn drawn(course: &mut Course, way: Way) -> Compared {
    for round in 0..DRAWN {
        let rng = &mut course.rng;
        let words = match round % 4 {
            0 => {
                let rows = 1 + rng.index(ROWS_MAX);
                sound(rng, rows, WORD_MAX)
            }
            _ => table(rng),
        };
        same_text(course, way, &form_read(way, &even(&words)))?;
    }
    Ok(())
}

/// "It never writes an old text for a table that the old form cannot say": whether one
/// is written depends on whether a row is deeply-red, and the first one is named.
pub fn red(course: &mut Course) -> Compared {
    for _ in 0..RED_OR_EVEN {
        let words = table(&mut course.rng);
        let text = text_of(&words);
        let room = byte_room_of(&mut course.rng, text.len());
        let old = same_into(course, Way::ToOld, (&text, &[]), &room)?;
        let is_red = words.chunks(ROW_WORDS).any(|row| row.last() == Some(&RED));
        if old.is_some() == is_red {
            return Err(Difference(format!("{words:?}: {old:?}")));
        }
        if let Some(old) = old {
            same_back(course, Way::ToOld, &text, &old)?;
        }
    }
    Ok(())
}

/// Every number of rows, of values as short and as long as they can be: up to the
/// longest texts, 1,384 bytes and 1,512.
pub fn limits(course: &mut Course, way: Way) -> Compared {
    let longest = even(&longest_table());
    let lengths = [way, way.back()].map(|way| form_read(way, &longest).len());
    let due = match way {
        Way::ToNew => [OLD_TEXT_MAX, TEXT_MAX],
        Way::ToOld => [TEXT_MAX, OLD_TEXT_MAX],
    };
    if lengths != due || OLD_TEXT_MAX != 1_384 || TEXT_MAX != 1_512 {
        return Err(Difference(format!("{lengths:?}, not {due:?}")));
    }
    let shortest = (1..=ROWS_MAX as u32).flat_map(|id| [id, 1, 1, 1, 1, 1, 0]);
    let shortest: Vec<u32> = shortest.collect();
    for rows in 1..=ROWS_MAX {
        for words in [&longest, &shortest] {
            let text = form_read(way, &words[..rows * ROW_WORDS]);
            for _ in 0..20 {
                same_text(course, way, &text)?;
            }
        }
    }
    Ok(())
}
