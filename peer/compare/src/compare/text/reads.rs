//! Texts of tables, well formed or not, values of every kind, and rooms.

use peer::gen::damaged_text;
use peer::table::{ROWS_MAX, ROW_WORDS, WORD_MAX};
use peer::text::{read, text_of};

use super::{same_read, same_text};
use crate::course::{shown, Compared, Course};
use crate::draw::{any_values, miswritten, nameable, one_row_with, room_of, rubbish_after, sound};
use crate::draw::{with_crs, VALUE_MAX};
use crate::ffi;

/// Texts of drawn tables.
const DRAWN: u32 = 100_000;

/// Texts damaged by the second program's generator.
const DAMAGED: u32 = 400_000;

/// Good texts, and texts of the form that are refused for their rows.
pub fn drawn(course: &mut Course) -> Compared {
    for round in 0..DRAWN {
        let rows = course.rng.index(ROWS_MAX + 4);
        let words = match round % 4 {
            0 => any_values(&mut course.rng, rows),
            _ => nameable(&mut course.rng),
        };
        same_text(course, &text_of(&words))?;
    }
    Ok(())
}

/// Texts with up to three damages of any kind.
pub fn damaged(course: &mut Course) -> Compared {
    for _ in 0..DAMAGED {
        let text = damaged_text(&mut course.rng);
        same_text(course, &text)?;
    }
    Ok(())
}

/// Every length of room to past the one needed, for every number of rows: the
/// table sound, one of its rows not, and the text at fault.
pub fn rooms(course: &mut Course) -> Compared {
    for rows in 1..=ROWS_MAX {
        let well = sound(&mut course.rng, rows, WORD_MAX);
        let mut faulty = well.clone();
        faulty[ROW_WORDS * course.rng.index(rows)] = 0;
        let text = text_of(&well);
        let cut = text[..text.len() - 1].to_vec();
        for text in [text, text_of(&faulty), cut] {
            let most = ROW_WORDS * rows + 8;
            for length in (0..=most).chain([2 * ROWS_MAX * ROW_WORDS]) {
                let room = room_of(&mut course.rng, length);
                same_read(course, &text, &room)?;
            }
        }
    }
    empty_slices(course)
}

/// Slices without any memory behind them, as a Rust caller may lend.
fn empty_slices(course: &mut Course) -> Compared {
    for text in [&b""[..], b"rows=0\n", &one_row_with(0, b"1")] {
        let (first, peer) = (ffi::read(text, &mut []), read(text, &mut []));
        course.settle(peer, first == peer, || {
            let (text, first, peer) = (text.escape_ascii(), shown(first), shown(peer));
            format!("reading, no room, {text}: {first} {peer}")
        })?;
    }
    let (mut first_room, mut peer_room) = ([7; 8], [7; 8]);
    let first = ffi::read(&[], &mut first_room);
    let peer = read(&[], &mut peer_room);
    course.settle(peer, first == peer && first_room == peer_room, || {
        let (first, peer) = (shown(first), shown(peer));
        format!("reading, no text: {first} {first_room:?} {peer} {peer_room:?}")
    })
}

/// Every value on the first line, with rubbish after it; every value on one of
/// the lines of a row; and each miswritten on a drawn line.
pub fn values(course: &mut Course) -> Compared {
    for value in 0..=VALUE_MAX {
        let mut text = format!("rows={value}\n").into_bytes();
        text.extend(rubbish_after(&mut course.rng));
        same_text(course, &text)?;
        let line = 1 + course.rng.index(ROW_WORDS);
        // Values up to 99 on every line, the rest on a drawn one.
        let lines = if value < 100 {
            1..=ROW_WORDS
        } else {
            line..=line
        };
        for line in lines {
            let text = one_row_with(line, value.to_string().as_bytes());
            same_text(course, &text)?;
        }
        let line = course.rng.index(ROW_WORDS + 1);
        let mut text = one_row_with(line, &miswritten(&mut course.rng, value));
        if course.rng.once_in(50) {
            text = with_crs(
                &mut course.rng,
                &one_row_with(1, value.to_string().as_bytes()),
            );
        }
        same_text(course, &text)?;
    }
    Ok(())
}
