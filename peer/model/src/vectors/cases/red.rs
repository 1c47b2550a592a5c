//! Cases of document 02, 3/14: p in and out of its range, deeply-red rows beside even
//! ones, and texts with a line `p=`.

use super::counts::word_at;
use super::states::{state_at, NOWHERE};
use super::tables::verdict_rooms;
use super::{rows_of, Cases};
use crate::dispatch::{HEAD_WORDS, P, SAVED_ROW_WORDS, STATE_WORDS};
use crate::gen::{draw_patterns, loaded_table, seventh_line_texts, six_words_a_row, tiny_table};
use crate::pattern::{EVEN, RED};
use crate::report::report;
use crate::table::ROW_WORDS;
use crate::text::text_of;

/// p in its range and past it, and words whose low bits alone would be in it.
const PS: [u32; 11] = [
    0,
    1,
    2,
    3,
    255,
    256,
    65_535,
    65_536,
    99_999,
    1 << 31,
    u32::MAX,
];

/// The same for a saved state, where it is a word of 64 bits.
const SAVED_PS: [u64; 9] = [
    0,
    1,
    2,
    65_535,
    4_294_967_295,
    1 << 32,
    (1 << 32) + 1,
    1 << 63,
    u64::MAX,
];

/// Pairs (m,k) whose two patterns are apart, and some whose are not.
const PAIRS: [(u32, u32); 12] = [
    (2, 4),
    (2, 5),
    (3, 5),
    (3, 6),
    (4, 8),
    (31, 63),
    (2, 64),
    (32, 64),
    (62, 64),
    (1, 64),
    (63, 64),
    (64, 64),
];

/// Three rows, each of a pair (m,k) whose two patterns are apart; a bit of `patterns`
/// for the p of each, bit 0 for row 0.
pub(super) fn mixed(patterns: u32) -> Vec<u32> {
    let p = |row: u32| patterns >> row & 1;
    [
        [21, 2, 4, 4, 2, 4, p(0)],
        [22, 2, 6, 5, 3, 5, p(1)],
        [23, 3, 9, 9, 3, 6, p(2)],
    ]
    .concat()
}

/// The table with every row of this pattern.
fn all(words: &[u32], p: u32) -> Vec<u32> {
    let mut words = words.to_vec();
    for row in words.chunks_exact_mut(ROW_WORDS) {
        row[P] = p;
    }
    words
}

/// One fault of a row, counted in the order in which they are looked for.
fn lay(words: &mut [u32], row: usize, fault: u32) {
    let earlier = words[0];
    let row = &mut words[row * ROW_WORDS..(row + 1) * ROW_WORDS];
    match fault {
        0 => row[0] = 0,
        1 => row[2] = 65_536,
        2 => row[3] = 0,
        3 => row[1] = 65_536,
        4 => row[5] = 65,
        5 => row[4] = row[5] + 1,
        6 => row[P] = 2,
        _ => row[0] = earlier,
    }
}

pub fn checks(cases: &mut Cases) {
    for (row, p) in (0..2).flat_map(|row| PS.map(|p| (row, p))) {
        let mut words = rows_of(2);
        words[row * ROW_WORDS + P] = p;
        cases.add(&[], &words);
    }
    // Two rows with a fault each: the earlier row's is told, whichever they are.
    for (first, second) in (0..8).flat_map(|a| (0..8).map(move |b| (a, b))) {
        let mut words = rows_of(3);
        lay(&mut words, 1, first);
        lay(&mut words, 2, second);
        cases.add(&[], &words);
    }
    // Tables as they were: only those of seven rows have a length that will do.
    for rows in [1, 2, 6, 7, 8, 14, 28, 32] {
        cases.add(&[], &six_words_a_row(&rows_of(rows)));
    }
}

pub fn verdicts(cases: &mut Cases) {
    for patterns in 0..8 {
        let words = mixed(patterns);
        for room in verdict_rooms(&words) {
            cases.add(&[room], &words);
        }
    }
    for _ in 0..60 {
        let mut words = cases.few_rows(loaded_table);
        let room = (words.len() / ROW_WORDS) as u64;
        cases.add(&[room], &all(&words, EVEN));
        cases.add(&[room], &all(&words, RED));
        draw_patterns(&mut cases.rng, &mut words);
        cases.add(&[room], &words);
    }
}

/// Each pattern tick by tick, mixed tables tick by tick, and p of a state changed.
pub fn runs(cases: &mut Cases) {
    let room = STATE_WORDS as u64;
    for (m, k) in PAIRS {
        let words = [5, 1, 1, 1, m, k, RED];
        let telling = [0, 1, m - 1, m, m + 1, k - 1, k, k + 1, k + m, 2 * k - 1];
        for n in telling {
            cases.add(&[room, n.into(), NOWHERE, 0, 0], &words);
        }
    }
    for patterns in 0..8 {
        for n in [0, 1, 2, 3, 5, 7, 11, 16, 20, 24, 36, 90] {
            cases.add(&[room, n, NOWHERE, 0, 3 * n], &mixed(patterns));
        }
    }
    // The other pattern goes on from where the first one was; any other p is refused.
    for (row, p) in (0..4).flat_map(|row| SAVED_PS.map(|p| (row, p))) {
        cases.add(&[room, 17, word_at(row, P), p, 40], &mixed(0b101));
    }
    for _ in 0..40 {
        let mut words = cases.few_rows(tiny_table);
        draw_patterns(&mut cases.rng, &mut words);
        let (n, more) = (cases.rng.below(200), cases.rng.below(200));
        let row = cases.rng.index(words.len() / ROW_WORDS);
        let state = state_at(&words, n as u32);
        let swapped = 1 - state[HEAD_WORDS + row * SAVED_ROW_WORDS + P];
        cases.add(&[room, n, NOWHERE, 0, more], &words);
        cases.add(&[room, n, word_at(row, P), swapped, more], &words);
    }
}

pub fn readings(cases: &mut Cases) {
    for text in seventh_line_texts() {
        cases.add_text(2 * ROW_WORDS, &text);
    }
    for patterns in [0, 5, 7] {
        let text = text_of(&mixed(patterns));
        for room in [3 * ROW_WORDS - 1, 3 * ROW_WORDS, 3 * ROW_WORDS + 1] {
            cases.add_text(room, &text);
        }
    }
}

pub fn reports(cases: &mut Cases) {
    let of = |ticks: u32, text: &[u8]| {
        let line = format!("ticks={ticks}\n").into_bytes();
        [line, text.to_vec()].concat()
    };
    for text in seventh_line_texts().iter().step_by(5) {
        cases.add_text(400, &of(30, text));
    }
    for (patterns, ticks) in (0..8).flat_map(|patterns| [(patterns, 11), (patterns, 180)]) {
        let input = of(ticks, &text_of(&mixed(patterns)));
        let length = report(&input).len();
        cases.add_text(length, &input);
        cases.add_text(length - 1, &input);
    }
}
