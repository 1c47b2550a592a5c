//! Cases of document 02, 4/14: texts of either form carried to the other.

use super::{faults, rows_of, Cases, FAULTS, P};
use crate::convert::{carried, Way};
use crate::gen::{carried_text, even, form_read, longest_table, special_texts};
use crate::table::{ROWS_MAX, ROW_WORDS};
use crate::text::text_of;

pub(super) fn to_new(cases: &mut Cases) {
    both(cases, Way::ToNew);
}

pub(super) fn to_old(cases: &mut Cases) {
    both(cases, Way::ToOld);
    // Each row the first with p 1, or the only one; and beside a fault.
    for row in 0..5 {
        let mut words = even(&rows_of(5));
        words[row * ROW_WORDS + ROW_WORDS - 1] = 1;
        cases.add_text(0, &text_of(&words));
        let mut later = words.clone();
        later[ROW_WORDS * 5 - 1] = 1;
        cases.add_text(250, &text_of(&later));
        words[ROW_WORDS * 3 - 1] = 2;
        cases.add_text(250, &text_of(&words));
    }
    let mut words = even(&rows_of(ROWS_MAX));
    words[ROW_WORDS * ROWS_MAX - 1] = 1;
    cases.add_text(1_512, &text_of(&words));
}

/// What is asked on either way.
fn both(cases: &mut Cases, way: Way) {
    let longest = form_read(way, &even(&longest_table()));
    around(cases, way, &longest, &[0, 1, 2]);
    cases.add_text(2, &form_read(way, &even(&rows_of(ROWS_MAX + 1)))[..60]);
    for words in P {
        around(cases, way, &form_read(way, words), &[0, 1, 3]);
        cases.add_text(9, &form_read(way.back(), words));
    }
    beginnings(cases, way);
    for text in special_texts().iter().step_by(19) {
        cases.add_text(40, text);
    }
    for (bit, past) in (0..FAULTS).flat_map(|bit| [(bit, false), (bit, true)]) {
        let mut words = faults(1 << bit, past);
        words
            .iter_mut()
            .for_each(|word| *word = (*word).min(99_999));
        cases.add_text(110, &form_read(way, &words));
        cases.add_text(110, &form_read(way, &even(&words)));
    }
    for _ in 0..60 {
        let text = cases.short(|rng| carried_text(rng, way));
        let due = carried(way, &text).map_or(60, |carried| carried.len());
        let room = due + cases.rng.index(3);
        cases.add_text(room - 1, &text);
    }
}

/// The text into a room one byte short of what it comes to, and into longer ones.
fn around(cases: &mut Cases, way: Way, text: &[u8], more: &[usize]) {
    let due = carried(way, text).map_or(60, |carried| carried.len());
    for more in more {
        cases.add_text(due + more - 1, text);
    }
}

/// Every beginning of a text of one row, from its line k on, and bytes after it.
fn beginnings(cases: &mut Cases, way: Way) {
    let text = form_read(way, &even(&rows_of(1)));
    let k = text.iter().position(|&byte| byte == b'k').unwrap_or(0);
    for length in k..text.len() {
        cases.add_text(50, &text[..length]);
    }
    for after in [&b"\n"[..], b"\r\n", b"p=0\n", b"id=2\n", b"\0"] {
        cases.add_text(50, &[&text, after].concat());
    }
}
