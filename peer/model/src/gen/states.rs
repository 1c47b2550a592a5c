//! Saved states, well formed and damaged.

use super::tables::{end_or_any, table};
use crate::dispatch::{self, HEAD_WORDS, HELD, P, SAVED_ROW_WORDS, STATE_WORDS, WINDOW};
use crate::rng::Rng;
use crate::table::{TaskRow, ROWS_MAX, ROW_WORDS};

/// Places of a saved row's words.
const K: usize = 5;
const WAIT: usize = 7;
const PLACE: usize = 8;
const WORK: usize = 9;
const LEFT: usize = 10;
const KIND: usize = 11;
const RELEASED: usize = 13;
const MM: usize = 14;
const BROKEN: usize = 18;

/// A well-formed saved state, drawn from all of them: whatever the document
/// does not ask for is drawn freely, so that most of these states are reached by
/// no run from fresh.
pub fn state(rng: &mut Rng) -> Vec<u64> {
    let table = table(rng);
    let time = match rng.below(6) {
        0 => rng.below(3),
        1 => u64::from(dispatch::CLOCK_END) - rng.below(300),
        2 => rng.between(0, u64::from(dispatch::CLOCK_END)),
        _ => rng.below(100_000),
    };
    let mut words = vec![0; STATE_WORDS];
    words[0] = (table.len() / ROW_WORDS) as u64;
    words[1] = time;
    words[2] = u64::from(end_or_any(rng, 0, time as u32));
    let (sevens, _) = table.as_chunks::<ROW_WORDS>();
    let (saved, _) = words[HEAD_WORDS..].as_chunks_mut::<SAVED_ROW_WORDS>();
    for (row, seven) in saved.iter_mut().zip(sevens) {
        for (word, field) in row.iter_mut().zip(seven) {
            *word = u64::from(*field);
        }
        fill_row(rng, row, &TaskRow::of(seven), time);
    }
    words
}

/// The met marks of a window without bits from k up.
fn met_in(window: u64) -> u64 {
    window.count_ones().into()
}

/// Wait, place, job, window with its number of met marks, and counts of one row.
fn fill_row(rng: &mut Rng, row: &mut [u64; SAVED_ROW_WORDS], task: &TaskRow, time: u64) {
    let wait = end_or_any(rng, 0, task.t - 1);
    row[WAIT] = u64::from(wait);
    row[PLACE] = u64::from(end_or_any(rng, 0, task.k - 1));
    // A live job needs a tick left before the next release, and has been
    // released.
    let live = wait > 0 && time > 0 && !rng.once_in(3);
    if live {
        row[WORK] = u64::from(end_or_any(rng, 1, task.c));
        row[LEFT] = u64::from(end_or_any(rng, 1, wait));
        row[KIND] = rng.below(2);
    }
    let free = rng.bits() | if rng.once_in(4) { rng.bits() } else { 0 };
    row[WINDOW] = if rng.once_in(8) {
        0
    } else {
        free & (u64::MAX >> (64 - task.k))
    };
    row[HELD] = met_in(row[WINDOW]);
    row[RELEASED] = u64::from(end_or_any(rng, u32::from(live), time as u32));
    let settled = row[RELEASED] - u64::from(live);
    let mut rest = settled;
    for count in row[MM..MM + 3].iter_mut() {
        *count = rng.between(0, rest);
        rest -= *count;
    }
    row[MM + 3] = rest;
    row[BROKEN] = u64::from(end_or_any(rng, 0, settled as u32));
}

/// A saved state with one word changed, and which word that was.
pub struct DamagedState {
    pub at: usize,
    pub words: Vec<u64>,
}

/// Every word of the head and of a drawn row changed in turn, and words of the
/// rows past the last: each bound at its end and one past it, one up, one down,
/// numbers no field can hold. Some of them are still well formed.
pub fn damaged_states(rng: &mut Rng, good: &[u64]) -> Vec<DamagedState> {
    let rows = good.first().map_or(0, |&rows| rows as usize).min(ROWS_MAX);
    let mut places: Vec<usize> = (0..HEAD_WORDS).collect();
    let drawn = rng.index(rows);
    places.extend((0..SAVED_ROW_WORDS).map(|at| HEAD_WORDS + drawn * SAVED_ROW_WORDS + at));
    if rows < ROWS_MAX {
        let past = [rows, ROWS_MAX - 1, rows + rng.index(ROWS_MAX - rows)];
        let words = past.map(|row| HEAD_WORDS + row * SAVED_ROW_WORDS + rng.index(SAVED_ROW_WORDS));
        places.extend(words);
    }
    let mut damaged = Vec::new();
    for at in places {
        for value in ends_of(good, at) {
            let mut words = good.to_vec();
            if let Some(word) = words.get_mut(at) {
                *word = value;
                damaged.push(DamagedState { at, words });
            }
        }
    }
    damaged
}

/// The numbers worth putting at a place of a saved state.
fn ends_of(good: &[u64], at: usize) -> Vec<u64> {
    let word = |at: usize| good.get(at).copied().unwrap_or(0);
    let now = word(at);
    let mut ends = vec![0, 1, 2, now.wrapping_add(1), now.wrapping_sub(1)];
    // A window with as many met marks as before, each a place on.
    ends.extend([now.rotate_left(1), now.rotate_right(1)]);
    ends.extend([64, 65, 65_535, 65_536]);
    ends.extend([
        u64::from(u32::MAX),
        1 << 32,
        (1 << 32) + 1,
        now.wrapping_add(1 << 32),
        1 << 63,
        u64::MAX,
    ]);
    let mut bounds = vec![word(0), 32, word(1)];
    if at >= HEAD_WORDS {
        let row = at - (at - HEAD_WORDS) % SAVED_ROW_WORDS;
        // Every other word of the row may be this word's bound, and so may the
        // released count, a window of k marks, the marks met in it and the sum of
        // the counts.
        bounds.extend((row..row + SAVED_ROW_WORDS).map(word));
        bounds.push(1u64.checked_shl(word(row + K) as u32).unwrap_or(0));
        bounds.push(met_in(word(row + WINDOW)));
        let counts = (row + MM..row + MM + 4).map(word);
        bounds.push(counts.fold(0, u64::wrapping_add));
    }
    for bound in bounds {
        ends.extend([bound, bound.wrapping_add(1), bound.wrapping_sub(1)]);
    }
    ends.sort_unstable();
    ends.dedup();
    ends.retain(|&value| value != now);
    ends
}

/// A saved state with several words of one row changed at once: counts whose sum
/// only comes out right when it overflows, a live job made or taken away, two
/// rows with one id, a mark turned over with and without the number of met marks,
/// another p, a wrong length.
pub fn scrambled_state(rng: &mut Rng) -> Vec<u64> {
    let mut words = state(rng);
    let rows = words[0] as usize;
    let row = HEAD_WORDS + rng.index(rows) * SAVED_ROW_WORDS;
    match rng.below(10) {
        0 => {
            // The sum comes out as it was in 32 bits or in 64, mostly by overflowing.
            let up = [1 << 31, 1 << 32, 1 << 63];
            let by = rng.choose(&up).unwrap_or(1 << 63);
            words[row + MM] = words[row + MM].wrapping_add(by);
            words[row + MM + 1] = words[row + MM + 1].wrapping_add(by);
            if rng.once_in(2) {
                words[row + MM + 1] = words[row + MM + 1].wrapping_sub(by << 1);
            }
        }
        1 => words[row + WORK..=row + KIND].fill(0),
        2 => words[row + WORK..=row + KIND].fill(1),
        3 => words[row] = words[HEAD_WORDS],
        4 => words.truncate(rng.index(STATE_WORDS)),
        5 => words.extend([0; 4].iter().take(1 + rng.index(4))),
        6 => words[row + P] = rng.choose(&[0, 1, 1, 2, 3, 1 << 32, u64::MAX]).unwrap_or(2),
        7 | 8 => {
            // Mostly a mark of the window; now and then one past its k.
            words[row + WINDOW] ^= 1 << rng.below(words[row + K] + 1).min(63);
            if rng.once_in(2) {
                words[row + HELD] = met_in(words[row + WINDOW]);
            }
        }
        _ => {
            let at = rng.index(STATE_WORDS);
            words[at] = rng.bits() >> rng.below(64);
        }
    }
    words
}
