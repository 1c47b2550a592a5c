//! Cases on tables: well formed or not, and the verdict.

use super::super::ROOM_MAX;
use super::{faults, red, rows_of, Cases, FAULTS, P};
use crate::gen::loaded_table;
use crate::rng::Rng;
use crate::table::{ROWS_MAX, ROW_WORDS, WORD_MAX};
use crate::verdict::verdict_leaping;

pub(super) fn checks(cases: &mut Cases) {
    for words in P {
        cases.add(&[], words);
    }
    // P11 and its like: no words, eight words, and every other small number.
    for length in 0..=23 {
        cases.add(&[], &rows_of(4)[..length]);
    }
    for rows in [31, 32, 33, 34, 36] {
        cases.add(&[], &rows_of(rows));
        cases.add(&[], &rows_of(rows)[1..]);
    }
    for set in 0..1 << FAULTS {
        cases.add(&[], &faults(set, false));
        cases.add(&[], &faults(set, true));
    }
    for _ in 0..60 {
        let words = cases.table();
        cases.add(&[], &words);
    }
    for _ in 0..160 {
        let words = cases.faulty();
        cases.add(&[], &words);
    }
    red::checks(cases);
}

/// The room's length, the rows of the table, and those on either side of it.
pub(super) fn verdict_rooms(words: &[u32]) -> [u64; 5] {
    let rows = words.len() / ROW_WORDS;
    [0, rows.saturating_sub(1), rows, rows + 1, ROOM_MAX].map(|room| room as u64)
}

/// A table whose row can bear its C and not one unit more, and that table with
/// one unit more; nothing where the row can bear none, or any.
fn limit(rng: &mut Rng, mut words: Vec<u32>) -> Option<[Vec<u32>; 2]> {
    let at = rng.index(words.len() / ROW_WORDS) * ROW_WORDS + 1;
    words[at] = 1;
    let mut room = [0; ROWS_MAX];
    if !verdict_leaping(&words, &mut room).is_accepted() {
        return None;
    }
    let within = loop {
        let within = words.clone();
        words[at] += 1;
        if !verdict_leaping(&words, &mut room).is_accepted() {
            break within;
        }
    };
    (words[at] <= WORD_MAX).then_some([within, words])
}

pub(super) fn verdicts(cases: &mut Cases) {
    for words in P {
        for room in verdict_rooms(words) {
            cases.add(&[room], words);
        }
    }
    for rows in [0, 1, 31, 32, 33] {
        let words = rows_of(rows);
        for room in verdict_rooms(&words) {
            cases.add(&[room], &words);
        }
    }
    for set in 0..1 << FAULTS {
        cases.add(&[u64::from(set % 3)], &faults(set, set % 2 == 0));
    }
    for _ in 0..90 {
        let words = cases.few_rows(loaded_table);
        for words in limit(&mut cases.rng, words).into_iter().flatten() {
            let rows = (words.len() / ROW_WORDS) as u64;
            let room = cases.rng.between(rows, rows + 2);
            cases.add(&[room], &words);
        }
    }
    for turn in 0..180 {
        let words = if turn % 4 == 0 {
            cases.faulty()
        } else {
            cases.table()
        };
        let room = cases.rng.choose(&verdict_rooms(&words)).unwrap_or(0);
        cases.add(&[room], &words);
    }
    red::verdicts(cases);
}
