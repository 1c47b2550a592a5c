//! Tables, well formed or not, written into lent rooms and read back.

use peer::gen::{longest_table, table};
use peer::pattern::{EVEN, RED};
use peer::table::{ROWS_MAX, ROW_WORDS, WORD_MAX};
use peer::text::{text_of, write, TEXT_MAX};

use super::{same_there_and_back, same_write};
use crate::compare::table::each_word_moved;
use crate::course::{shown, Compared, Course};
use crate::draw::{any_table, byte_room, byte_room_of, sound};
use crate::ffi;

/// Tables drawn freely.
const DRAWN: u32 = 100_000;

/// The table written into a drawn room; what was written is read back.
fn same_drawn(course: &mut Course, words: &[u32]) -> Compared {
    let needed = text_of(words).len().min(2 * TEXT_MAX);
    let room = byte_room(&mut course.rng, needed);
    same_there_and_back(course, words, &room)
}

/// Every length of table to well past 224 words, and lengths whose row count has
/// low bits that would be in range, each with several contents.
pub fn lengths(course: &mut Course) -> Compared {
    let long = [1_785, 1_792, 1_799, 458_752, 458_759, 458_760];
    for length in (0..=300).chain(long) {
        let mut well = sound(&mut course.rng, length / ROW_WORDS + 1, WORD_MAX);
        well.truncate(length);
        let drawn = (0..length).map(|_| course.rng.word(0, 66)).collect();
        for words in [well, vec![0; length], vec![u32::MAX; length], drawn] {
            let room = byte_room(&mut course.rng, TEXT_MAX);
            same_there_and_back(course, &words, &room)?;
        }
    }
    empty_slices(course)
}

/// Slices without any memory behind them, as a Rust caller may lend.
fn empty_slices(course: &mut Course) -> Compared {
    for words in [&[] as &[u32], &[1, 1, 1, 1, 1, 1, 1]] {
        let (first, peer) = (ffi::write(words, &mut []), write(words, &mut []));
        course.settle(peer, first == peer, || {
            let (first, peer) = (shown(first), shown(peer));
            format!("writing, no room, {words:?}: {first} {peer}")
        })?;
    }
    Ok(())
}

/// Every length of room around the one needed, for every number of rows, the
/// table sound and not; for the longest table every length there is.
pub fn rooms(course: &mut Course) -> Compared {
    for rows in 1..=ROWS_MAX {
        let well = sound(&mut course.rng, rows, WORD_MAX);
        let needed = text_of(&well).len();
        let mut faulty = well.clone();
        faulty[ROW_WORDS * course.rng.index(rows)] = 0;
        for words in [well, faulty] {
            let around = needed.saturating_sub(20)..=needed + 20;
            let lengths = (0..=10).chain(around).chain([needed / 2, 2 * TEXT_MAX]);
            for length in lengths {
                let room = byte_room_of(&mut course.rng, length);
                same_there_and_back(course, &words, &room)?;
            }
        }
    }
    for length in 0..=TEXT_MAX + 20 {
        let room = byte_room_of(&mut course.rng, length);
        same_there_and_back(course, &longest_table(), &room)?;
    }
    Ok(())
}

/// Each word of tables of several sizes, moved.
pub fn fields(course: &mut Course) -> Compared {
    for rows in [1, 2, 5, ROWS_MAX] {
        let well = sound(&mut course.rng, rows, WORD_MAX);
        each_word_moved(&well, |words| same_drawn(course, words))?;
    }
    Ok(())
}

/// Every number that a table can hold, as id, C, T and D, and every pair (m,k),
/// into rooms that are just long enough.
pub fn values(course: &mut Course) -> Compared {
    let ks = (1..=64).flat_map(|k| (1..=k).map(move |m| (m, k)));
    let pairs: Vec<(u32, u32)> = ks.collect();
    for value in 1..=WORD_MAX {
        let (m, k) = pairs[value as usize % pairs.len()];
        let words = match value % 3 {
            0 => vec![value, value, value, value, m, k, EVEN],
            1 => vec![value, 1, WORD_MAX, value, m, k, RED],
            _ => [
                [1, value, value, 1, m, k, RED],
                [value, 1, value, value, 1, 64, EVEN],
            ]
            .concat(),
        };
        let needed = text_of(&words).len();
        let room = byte_room_of(&mut course.rng, needed);
        same_there_and_back(course, &words, &room)?;
        let room = byte_room_of(&mut course.rng, needed - 1);
        same_write(course, &words, &room)?;
    }
    Ok(())
}

/// Tables with faults, sound ones and rubbish, into a drawn room.
pub fn drawn(course: &mut Course) -> Compared {
    for round in 0..DRAWN {
        let words = match round % 3 {
            0 => table(&mut course.rng),
            _ => any_table(&mut course.rng, WORD_MAX),
        };
        same_drawn(course, &words)?;
    }
    Ok(())
}
