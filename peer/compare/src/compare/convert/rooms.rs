//! Rooms of every length: just enough, one byte short, none, and longer.

use peer::convert::{convert, Way};
use peer::gen::{even, form_read, longest_table};
use peer::pattern::RED;
use peer::table::{ROWS_MAX, ROW_WORDS};

use super::inputs::even_rows;
use super::same_into;
use crate::course::{shown, Compared, Course, Difference};
use crate::draw::byte_room_of;
use crate::ffi;

/// Every length around the one needed, for every number of rows: the text sound, one of
/// its rows at fault, one deeply-red, and the text at fault.
pub fn rooms(course: &mut Course, way: Way) -> Compared {
    for rows in 1..=ROWS_MAX {
        let well = even_rows(&mut course.rng, rows);
        let row = ROW_WORDS * course.rng.index(rows);
        let (mut faulty, mut red) = (well.clone(), well.clone());
        faulty[row] = 0;
        red[row + ROW_WORDS - 1] = RED;
        let needed = form_read(way.back(), &well).len();
        let text = form_read(way, &well);
        let cut = text[..text.len() - 1].to_vec();
        for text in [text, form_read(way, &faulty), form_read(way, &red), cut] {
            let around = needed.saturating_sub(12)..=needed + 12;
            let far = [0, 1, 6, needed / 2, text.len() - 1, text.len(), 2_000];
            for length in around.chain(far) {
                let room = byte_room_of(&mut course.rng, length);
                same_into(course, way, (&text, &[]), &room)?;
            }
        }
    }
    longest(course, way)?;
    empty_slices(course, way)
}

/// The longest text into a room of every length to past the one needed: it is written
/// from the one needed on, and in no shorter one.
fn longest(course: &mut Course, way: Way) -> Compared {
    let words = even(&longest_table());
    let (text, due) = (form_read(way, &words), form_read(way.back(), &words));
    for length in 0..=due.len() + 20 {
        let room = byte_room_of(&mut course.rng, length);
        let there = same_into(course, way, (&text, &[]), &room)?;
        if there.is_some() != (length >= due.len()) || there.is_some_and(|there| there != due) {
            return Err(Difference(format!("{way:?} into {length} bytes")));
        }
    }
    Ok(())
}

/// Slices without any memory behind them, as a Rust caller may lend.
fn empty_slices(course: &mut Course, way: Way) -> Compared {
    let good = form_read(way, &[1, 1, 1, 1, 1, 1, 0]);
    for text in [&b""[..], b"rows=0\n", &good] {
        let (first, peer) = (
            ffi::convert(way, text, &mut []),
            convert(way, text, &mut []),
        );
        course.settle(peer, first == peer, || {
            let (text, first, peer) = (text.escape_ascii(), shown(first), shown(peer));
            format!("{way:?}, no room, {text}: {first} {peer}")
        })?;
    }
    let (mut first_room, mut peer_room) = ([7; 64], [7; 64]);
    let first = ffi::convert(way, &[], &mut first_room);
    let peer = convert(way, &[], &mut peer_room);
    course.settle(peer, first == peer && first_room == peer_room, || {
        let (first, peer) = (shown(first), shown(peer));
        format!("{way:?}, no text: {first} {first_room:?} {peer} {peer_room:?}")
    })
}
