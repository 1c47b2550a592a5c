//! Cases of document 02, 7/14: the rooms of the rows, in tables admitted and turned
//! down.

use super::red::mixed;
use super::tables::verdict_rooms;
use super::{faults, rows_of, Cases, FAULTS, P};
use crate::gen::{boundary_table, loaded_table, tiny_table, wide_table};
use crate::rng::Rng;
use crate::rooms::rooms_by_stretches;
use crate::table::{ROWS_MAX, ROW_WORDS, WORD_MAX};
use crate::verdict::verdict_leaping;

/// The last row of the tables made here: as much of the range as there is.
const LONG: [u32; ROW_WORDS] = [99, 1, WORD_MAX, WORD_MAX, 1, 1, 0];

pub(super) fn rooms(cases: &mut Cases) {
    for words in P {
        for room in verdict_rooms(words) {
            cases.add(&[room], words);
        }
    }
    refused(cases);
    for patterns in 0..8 {
        let words = mixed(patterns);
        cases.add(&[3], &words);
        cases.add(&[u64::from(patterns % 3)], &words);
    }
    ends(cases);
    every_tick(cases);
    full(cases);
    for _ in 0..30 {
        let words = turned_down(cases);
        fitting(cases, &words);
    }
    for turn in 0..36 {
        let draw = [boundary_table, wide_table, tiny_table][turn % 3];
        let words = cases.few_rows(draw);
        fitting(cases, &words);
    }
    for _ in 0..12 {
        planned(cases);
    }
}

/// A case with as many words of room as the table has rows, or one or two more.
fn fitting(cases: &mut Cases, words: &[u32]) {
    let room = words.len() / ROW_WORDS + cases.rng.index(3);
    cases.add(&[room as u64], words);
}

/// Every length that will not do and some that will, and each fault of a row, alone and
/// with the one after it: 13 comes after them all.
fn refused(cases: &mut Cases) {
    let long = rows_of(33);
    for length in [0, 1, 6, 7, 8, 13, 14, 223, 225, 231] {
        cases.add(&[2], &long[..length]);
    }
    for (bit, past) in (0..FAULTS).flat_map(|bit| [(bit, false), (bit, true)]) {
        cases.add(&[2], &faults(1 << bit, past));
        cases.add(&[u64::from(bit % 2)], &faults(3 << bit & 255, past));
    }
}

/// Ends of ranges: one row with each D and C, rows above that leave nothing, next to
/// nothing and nearly all.
fn ends(cases: &mut Cases) {
    for d in [1, 2, WORD_MAX - 1, WORD_MAX] {
        for c in [1, WORD_MAX] {
            cases.add(&[1], &[7, c, WORD_MAX, d, 1, 64, 1]);
        }
    }
    for c in [1, 2, 32_767, 32_768, WORD_MAX - 1, WORD_MAX] {
        let above = [8, c, WORD_MAX, 5, 64, 64, c % 2];
        cases.add(&[2], &[above, LONG].concat());
        let sooner = [8, c, 32_768, 5, 1, 1, c % 2];
        cases.add(&[2], &[sooner, LONG].concat());
    }
}

/// A row above with a job in each tick, or nearly: stretches of a tick, up to 65,535.
fn every_tick(cases: &mut Cases) {
    for (m, k) in [(1, 1), (1, 2), (2, 4), (1, 64), (32, 64), (63, 64)] {
        for (t, p) in [(1, 0), (1, 1), (3, 1)] {
            let above = [8, 1, t, 1, m, k, p];
            cases.add(&[2], &[above, LONG].concat());
        }
    }
    // Beside a long row, whose second job leaves less than its first: the room is had
    // where that one is released, thousands of stretches before D.
    for (c, t) in [(3_000, 4_000), (20_000, 30_000), (30_000, 40_000)] {
        for p in [0, 1] {
            let (often, seldom) = ([7, 1, 1, 1, 1, 64, p], [8, c, t, t, 2, 2, p]);
            let mut below = LONG;
            below[3] = WORD_MAX.min(t + c);
            cases.add(&[3], &[often, seldom, below].concat());
        }
    }
}

/// All 32 rows: room enough, one word short, and every C one more than the next.
fn full(cases: &mut Cases) {
    let rows = ROWS_MAX as u64;
    let mut words = rows_of(ROWS_MAX);
    cases.add(&[rows], &words);
    cases.add(&[rows - 1], &words);
    for (row, c) in words.chunks_exact_mut(ROW_WORDS).zip((1..=32).rev()) {
        [row[1], row[2], row[3]] = [c, 700 + c, 600 + c];
    }
    cases.add(&[rows + 2], &words);
}

/// A table that the verdict turns down before its last row.
fn turned_down(cases: &mut Cases) -> Vec<u32> {
    loop {
        let words = cases.few_rows(loaded_table);
        let answer = verdict_leaping(&words, &mut [0; ROWS_MAX]);
        let rows = words.len() / ROW_WORDS;
        if !answer.is_accepted() && answer.value + 1 < rows as u64 {
            return words;
        }
    }
}

/// A table with C of one row at its room, and with one unit more: no room above it or
/// of it is another, and those below it are no larger.
fn planned(cases: &mut Cases) {
    let mut words = cases.few_rows(loaded_table);
    let mut room = [0; ROWS_MAX];
    rooms_by_stretches(&words, &mut room);
    let row = index_of_room(&mut cases.rng, &room[..words.len() / ROW_WORDS]);
    let rows = (words.len() / ROW_WORDS) as u64;
    for c in [room[row].max(1), room[row] + 1] {
        words[row * ROW_WORDS + 1] = c;
        cases.add(&[rows], &words);
    }
}

/// One of the rows with a room, more often one below others.
fn index_of_room(rng: &mut Rng, rooms: &[u32]) -> usize {
    let last = rooms.iter().rposition(|&room| room > 0).unwrap_or(0);
    last - rng.index(last + 1) / 2
}
