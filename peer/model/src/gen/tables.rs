//! Tables, well formed.

use crate::pattern::{EVEN, RED};
use crate::rng::Rng;
use crate::table::{TaskRow, ROWS_MAX, ROW_WORDS, WORD_MAX};

/// A well-formed table; most of them near full load.
pub fn table(rng: &mut Rng) -> Vec<u32> {
    match rng.below(10) {
        0 => boundary_table(rng),
        1 => wide_table(rng),
        2 => tiny_table(rng),
        _ => loaded_table(rng),
    }
}

/// Mostly a handful of rows, now and then any number of them.
fn row_count(rng: &mut Rng) -> usize {
    match rng.below(6) {
        0 => 1 + rng.index(ROWS_MAX),
        1 => ROWS_MAX - rng.index(2),
        _ => 1 + rng.index(7),
    }
}

/// An id that no row has yet; the ends 1 and 65535 more often than chance.
fn new_id(rng: &mut Rng, rows: &[TaskRow]) -> u32 {
    let mut id = match rng.below(8) {
        0 => 1,
        1 => WORD_MAX,
        _ => rng.word(1, WORD_MAX),
    };
    while rows.iter().any(|row| row.id == id) {
        id = rng.word(1, WORD_MAX);
    }
    id
}

fn words_of(rows: &[TaskRow]) -> Vec<u32> {
    rows.iter().flat_map(TaskRow::words).collect()
}

/// So many rows, each drawn by `draw` and given an id of its own.
fn rows_of(rng: &mut Rng, count: usize, draw: fn(&mut Rng, usize) -> TaskRow) -> Vec<TaskRow> {
    let mut rows = Vec::with_capacity(count);
    for _ in 0..count {
        let mut row = draw(rng, count);
        row.id = new_id(rng, &rows);
        rows.push(row);
    }
    let patterns = patterns(rng, count);
    for (row, p) in rows.iter_mut().zip(patterns) {
        row.p = p;
    }
    rows
}

/// p of so many rows: all even, all deeply-red, or each of them as it comes.
fn patterns(rng: &mut Rng, rows: usize) -> Vec<u32> {
    match rng.below(5) {
        0 => vec![EVEN; rows],
        1 => vec![RED; rows],
        _ => (0..rows).map(|_| rng.word(EVEN, RED)).collect(),
    }
}

/// The same laid into the rows of a table.
pub fn draw_patterns(rng: &mut Rng, words: &mut [u32]) {
    let (sevens, _) = words.as_chunks_mut::<ROW_WORDS>();
    let patterns = patterns(rng, sevens.len());
    for ([.., p], drawn) in sevens.iter_mut().zip(patterns) {
        *p = drawn;
    }
}

/// One of the two ends of a range, a neighbour of one, or any number of it.
pub(super) fn end_or_any(rng: &mut Rng, low: u32, high: u32) -> u32 {
    let drawn = match rng.below(6) {
        0 | 1 => low,
        2 => low + 1,
        3 => high.saturating_sub(1),
        4 => high,
        _ => rng.word(low, high),
    };
    drawn.clamp(low, high)
}

/// Every field at or near an end of its range.
pub fn boundary_table(rng: &mut Rng) -> Vec<u32> {
    let count = row_count(rng);
    words_of(&rows_of(rng, count, |rng, _| {
        let t = end_or_any(rng, 1, WORD_MAX);
        let k = end_or_any(rng, 1, 64);
        TaskRow {
            id: 0,
            c: end_or_any(rng, 1, WORD_MAX),
            t,
            d: end_or_any(rng, 1, t),
            m: end_or_any(rng, 1, k),
            k,
            p: EVEN,
        }
    }))
}

/// Any well-formed row is as likely as any other, save that C is held near D.
pub fn wide_table(rng: &mut Rng) -> Vec<u32> {
    let count = row_count(rng);
    words_of(&rows_of(rng, count, |rng, count| {
        let t = rng.word(1, WORD_MAX);
        let d = rng.word(1, t);
        let k = rng.word(1, 64);
        TaskRow {
            id: 0,
            c: rng.word(1, (2 * d / count as u32).clamp(1, WORD_MAX)),
            t,
            d,
            m: rng.word(1, k),
            k,
            p: EVEN,
        }
    }))
}

/// Periods of a few ticks, so that every tick brings releases and settlings.
pub fn tiny_table(rng: &mut Rng) -> Vec<u32> {
    let count = row_count(rng);
    words_of(&rows_of(rng, count, |rng, _| {
        let t = rng.word(1, 6);
        let d = rng.word(1, t);
        let k = rng.word(1, 7);
        TaskRow {
            id: 0,
            c: rng.word(1, d + 1),
            t,
            d,
            m: rng.word(1, k),
            k,
            p: EVEN,
        }
    }))
}

/// Rows whose mandatory work together comes near the whole of the processor,
/// often with the shortest deadline in the highest row.
pub fn loaded_table(rng: &mut Rng) -> Vec<u32> {
    let count = row_count(rng);
    let mut rows = rows_of(rng, count, |rng, count| {
        let longest = 8 * count as u32 * rng.word(1, 4);
        let t = rng.word(3 * count as u32, longest);
        let d = if rng.once_in(3) {
            rng.word(t / 2 + 1, t)
        } else {
            t
        };
        let k = if rng.once_in(5) {
            rng.word(1, 64)
        } else {
            rng.word(1, 6)
        };
        let m = if rng.once_in(3) { k } else { rng.word(1, k) };
        TaskRow {
            id: 0,
            c: 1,
            t,
            d,
            m,
            k,
            p: EVEN,
        }
    });
    if !rng.once_in(4) {
        rows.sort_by_key(|row| row.d);
    }
    share_out(rng, &mut rows);
    words_of(&rows)
}

/// Gives each row its part of a load drawn between 55 and 115 in a hundred. A
/// row's jobs come in bunches at the start, so a part of the slack left by
/// optional jobs is not given out.
fn share_out(rng: &mut Rng, rows: &mut [TaskRow]) {
    let percent = rng.word(55, 115);
    let count = rows.len() as u32;
    for row in rows {
        let full = row.d * percent / (100 * count);
        let bunched = if rng.once_in(2) {
            full
        } else {
            full * (row.k + row.m) / (2 * row.m)
        };
        row.c = bunched.clamp(1, WORD_MAX);
        if rng.once_in(6) {
            row.c = (row.c + rng.word(0, 2)).saturating_sub(1).max(1);
        }
    }
}
