//! Tables with faults: in a field, in the ids, in their length.

use super::tables::table;
use super::VALUE_MAX;
use crate::pattern::RED;
use crate::rng::Rng;
use crate::table::{ROW_WORDS, WORD_MAX};

/// Words that have one or several faults, in any order: fields out of range,
/// ids that stand twice, lengths off by one to six, six words to a row, no rows, too
/// many rows. A few are well formed all the same, a field having come to an end of its range.
pub fn faulty_table(rng: &mut Rng) -> Vec<u32> {
    let mut words = table(rng);
    for _ in 0..rng.between(1, 4) {
        match rng.below(10) {
            0..=6 => damage_field(rng, &mut words),
            7 => repeat_id(rng, &mut words),
            8 => damage_length(rng, &mut words),
            _ => {
                let rows = rng.between(33, 40) as usize;
                words = (0..rows * ROW_WORDS).map(|at| at as u32 % 11).collect();
            }
        }
    }
    if rng.once_in(40) {
        words = six_words_a_row(&words);
    }
    if rng.once_in(40) {
        words.clear();
    }
    words
}

/// One field of one row at an end of its range or past it.
fn damage_field(rng: &mut Rng, words: &mut [u32]) {
    let (sevens, _) = words.as_chunks_mut::<ROW_WORDS>();
    let row = rng.index(sevens.len());
    let Some([id, c, t, d, m, k, p]) = sevens.get_mut(row) else {
        return;
    };
    let (field, high) = match rng.below(7) {
        0 => (id, WORD_MAX),
        1 => (t, WORD_MAX),
        2 => (d, *t),
        3 => (c, WORD_MAX),
        4 => (k, 64),
        5 => (p, RED),
        _ => (m, *k),
    };
    let past = high.saturating_add(1);
    let values = [0, past, 0, past, high, 1, VALUE_MAX, u32::MAX];
    *field = rng.choose(&values).unwrap_or(0);
}

/// The id of one row put into another.
pub(super) fn repeat_id(rng: &mut Rng, words: &mut [u32]) {
    let rows = words.len() / ROW_WORDS;
    let (from, to) = (rng.index(rows), rng.index(rows));
    if rows > 0 {
        words[to * ROW_WORDS] = words[from * ROW_WORDS];
    }
}

/// One to six words more or fewer.
fn damage_length(rng: &mut Rng, words: &mut Vec<u32>) {
    let by = rng.between(1, 6) as usize;
    if rng.once_in(2) {
        words.truncate(words.len().saturating_sub(by));
    } else {
        let more = (0..by).map(|_| rng.word(0, 66));
        words.extend(more.collect::<Vec<u32>>());
    }
}

/// The table as it was before its rows had a p: six words to each of them.
pub fn six_words_a_row(words: &[u32]) -> Vec<u32> {
    let rows = words.chunks(ROW_WORDS);
    rows.flat_map(|row| &row[..row.len().min(ROW_WORDS - 1)])
        .copied()
        .collect()
}
