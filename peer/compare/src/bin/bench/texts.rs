//! The longest text, read and written, and carried from one form to the other.

use std::hint::black_box;

use compare::ffi;
use peer::convert::{convert_plain, Way};
use peer::gen::{even, form_read, longest_table};
use peer::table::{ROWS_MAX, ROW_WORDS};
use peer::text::{read, text_of, write_plain, TEXT_MAX};

use super::timing::line;

/// The longest text, read into a room of its table's length.
pub fn read_longest() -> bool {
    let (text, table) = (text_of(&longest_table()), longest_table());
    let (mut room, mut peer_room) = ([0; ROWS_MAX * ROW_WORDS], [0; ROWS_MAX * ROW_WORDS]);
    let (ours, peer) = (ffi::read(&text, &mut room), read(&text, &mut peer_room));
    if ours != peer || !ours.is_accepted() || room != *table || peer_room != *table {
        println!("bench read_longest ours {ours:?} {room:?} peer {peer:?} {peer_room:?}");
        return false;
    }
    let mut ours = || {
        black_box((ffi::read(black_box(&text), &mut room), &room));
    };
    let mut peer = || {
        black_box((read(black_box(&text), &mut peer_room), &peer_room));
    };
    line("read_longest", 1, &mut ours, &mut peer);
    true
}

/// The longest text, written into a room of its length; the second program
/// writes straight into the room as well.
pub fn write_longest() -> bool {
    let (text, table) = (text_of(&longest_table()), longest_table());
    let (mut room, mut peer_room) = ([0; TEXT_MAX], [0; TEXT_MAX]);
    let ours = ffi::write(&table, &mut room);
    let peer = write_plain(&table, &mut peer_room);
    if ours != peer || !ours.is_accepted() || room != *text || peer_room != *text {
        println!("bench write_longest ours {ours:?} {room:?} peer {peer:?} {peer_room:?}");
        return false;
    }
    let mut ours = || {
        black_box((ffi::write(black_box(&table), &mut room), &room));
    };
    let mut peer = || {
        black_box((write_plain(black_box(&table), &mut peer_room), &peer_room));
    };
    line("write_longest", 1, &mut ours, &mut peer);
    true
}

/// The longest text that can be carried, 32 rows with p 0, into a room of what comes of
/// it, either way; the second program lays each line straight into the room as well.
pub fn carry_longest() -> bool {
    carried("to_new_longest", Way::ToNew) && carried("to_old_longest", Way::ToOld)
}

fn carried(name: &str, way: Way) -> bool {
    let words = even(&longest_table());
    let (text, due) = (form_read(way, &words), form_read(way.back(), &words));
    let (mut room, mut peer_room) = (vec![0; due.len()], vec![0; due.len()]);
    let ours = ffi::convert(way, &text, &mut room);
    let peer = convert_plain(way, &text, &mut peer_room);
    if ours != peer || !ours.is_accepted() || room != due || peer_room != due {
        println!("bench {name} ours {ours:?} {room:?} peer {peer:?} {peer_room:?}");
        return false;
    }
    let mut ours = || {
        black_box((ffi::convert(way, black_box(&text), &mut room), &room));
    };
    let mut peer = || {
        let answer = convert_plain(way, black_box(&text), &mut peer_room);
        black_box((answer, &peer_room));
    };
    line(name, 1, &mut ours, &mut peer);
    true
}
