//! Tables with any number of rows, and words that are no table.

use peer::gen::{draw_patterns, faulty_table, loaded_table, six_words_a_row};
use peer::gen::{table, tiny_table};
use peer::pattern::EVEN;
use peer::rng::Rng;
use peer::table::{ROWS_MAX, ROW_WORDS, WORD_MAX};

use super::{any_shape, limit_pair, EDGES};

/// Places of the words of a row: "id, C, T, D, m, k", and p.
const ID: usize = 0;
const C: usize = 1;
const T: usize = 2;
const D: usize = 3;
const M: usize = 4;
const K: usize = 5;
const P: usize = 6;

/// A well-formed table of so many rows, no period above `t_max`.
pub fn sound(rng: &mut Rng, rows: usize, t_max: u32) -> Vec<u32> {
    let first = rng.word(1, WORD_MAX);
    // 257 and the 65,535 ids have a common factor; within 32 rows none repeats.
    let step = rng.choose(&[1, 2, 257, 1_000]).unwrap_or(1);
    let mut words = Vec::with_capacity(rows * ROW_WORDS);
    for row in 0..rows as u32 {
        let t = rng.word(1, t_max);
        let d = rng.word(1, t);
        let k = rng.word(1, 64);
        words.extend([
            (first + row * step - 1) % WORD_MAX + 1,
            rng.word(1, d + 1).min(WORD_MAX),
            t,
            d,
            rng.word(1, k),
            k,
            EVEN,
        ]);
    }
    draw_patterns(rng, &mut words);
    words
}

/// Tables with faults drawn by both generators, sound ones and rubbish; of the
/// sound ones no period is above `t_max`.
pub fn any_table(rng: &mut Rng, t_max: u32) -> Vec<u32> {
    match rng.below(8) {
        0..=2 => faulty_table(rng),
        3 => rubbish(rng),
        kind => {
            let rows = 1 + rng.index(ROWS_MAX);
            let well = sound(rng, rows, t_max);
            if kind == 4 {
                well
            } else {
                damaged(rng, well)
            }
        }
    }
}

/// A well-formed table to be run, "admitted or not": most of them near full
/// load, and one in four on one side or the other of the limit.
pub fn run_table(rng: &mut Rng) -> Vec<u32> {
    match rng.below(8) {
        0..=2 => loaded_table(rng),
        3 => tiny_table(rng),
        4 => table(rng),
        5 => {
            let rows = 1 + rng.index(ROWS_MAX);
            sound(rng, rows, 60)
        }
        kind => {
            let shape = any_shape(rng);
            let pair = limit_pair(rng, shape);
            if kind == 6 {
                pair.within
            } else {
                pair.past
            }
        }
    }
}

/// One to five faults laid into a table, in any order and anywhere: fields at
/// or past an edge, ids of other rows, words too many or too few.
pub fn damaged(rng: &mut Rng, mut words: Vec<u32>) -> Vec<u32> {
    let one_row = rng.once_in(3).then(|| rng.index(words.len() / ROW_WORDS));
    for _ in 0..rng.between(1, 5) {
        let rows = words.len() / ROW_WORDS;
        let row = one_row.unwrap_or_else(|| rng.index(rows));
        match rng.below(16) {
            0 if rng.once_in(3) => words = six_words_a_row(&words),
            0 => off_seven(rng, &mut words),
            1 => words.resize((33 + rng.index(8)) * ROW_WORDS, 1),
            2 | 3 => copy_id(rng, &mut words),
            _ => damage_field(rng, &mut words, row),
        }
    }
    words
}

/// One to six words more or fewer.
pub fn off_seven(rng: &mut Rng, words: &mut Vec<u32>) {
    let by = 1 + rng.index(6);
    if rng.once_in(2) {
        words.truncate(words.len().saturating_sub(by));
    } else {
        words.extend((0..by).map(|_| u32::MAX));
    }
}

/// The id of one row put into another.
fn copy_id(rng: &mut Rng, words: &mut [u32]) {
    let rows = words.len() / ROW_WORDS;
    let (from, to) = (rng.index(rows), rng.index(rows));
    if let Some(&id) = words.get(from * ROW_WORDS) {
        words[to * ROW_WORDS] = id;
    }
}

/// A field of the row at an edge, or at a neighbour of T or of k, or p on either side
/// of its bound.
fn damage_field(rng: &mut Rng, words: &mut [u32], row: usize) {
    let Some(row) = words.get_mut(row * ROW_WORDS..(row + 1) * ROW_WORDS) else {
        return;
    };
    let (field, step) = (rng.index(ROW_WORDS), rng.word(0, 2));
    let value = match (field, rng.below(4)) {
        (D, 0..=2) => row[T].wrapping_add(step),
        (M, 0..=2) => row[K].wrapping_add(step),
        (T, 0) => row[D].wrapping_sub(step),
        (K, 0) => row[M].wrapping_sub(step),
        (P, 0..=2) => step,
        _ => rng.choose(&EDGES).unwrap_or(0),
    };
    row[field] = value;
}

/// Words of any length and kind.
pub fn rubbish(rng: &mut Rng) -> Vec<u32> {
    let length = match rng.below(4) {
        0 => rng.index(300),
        1 => ROW_WORDS * rng.index(40),
        2 => ROWS_MAX * ROW_WORDS - 6 + rng.index(14),
        _ => rng.index(16),
    };
    let kind = rng.below(4);
    let draw = |_| match kind {
        0 => u32::MAX,
        1 => rng.word(0, 66),
        2 => rng.bits() as u32,
        _ => rng.choose(&EDGES).unwrap_or(0),
    };
    (0..length).map(draw).collect()
}

/// Refusals 4 to 9, 16 and 10, the faults that a row can have.
pub const FAULTS: u32 = 8;

/// Lays a set of those faults into a row: bit 0 for refusal 4, up to bit 7 for
/// refusal 10, which takes `earlier` for its id. Each word falls short of its
/// range, or where `over` has the fault's bit goes past it; p goes far past its range
/// or just past it.
pub fn faults_in(row: &mut [u32], faults: u32, over: u32, earlier: u32) {
    let chosen = |fault: u32| faults >> fault & 1 == 1;
    let past = |fault: u32, end: u32| if over >> fault & 1 == 1 { end + 1 } else { 0 };
    if chosen(7) {
        row[ID] = earlier;
    }
    if chosen(0) {
        row[ID] = past(0, WORD_MAX);
    }
    if chosen(1) {
        row[T] = past(1, WORD_MAX);
    }
    if chosen(2) {
        row[D] = past(2, row[T]);
    }
    if chosen(3) {
        row[C] = past(3, WORD_MAX);
    }
    if chosen(4) {
        row[K] = past(4, 64);
    }
    if chosen(5) {
        row[M] = past(5, row[K]);
    }
    if chosen(6) {
        row[P] = if over >> 6 & 1 == 1 { 2 } else { 99_999 };
    }
}
