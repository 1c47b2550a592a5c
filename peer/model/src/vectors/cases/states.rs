//! Cases on states: fresh ones, ticks and runs, and states with a word changed.

use super::super::STATE_ROOM_MAX;
use super::counts::{untrue, word_at};
use super::{red, rows_of, Cases, P, SOUND};
use crate::dispatch::{fresh_words, run_words, CLOCK_END, HELD, STATE_WORDS};
use crate::gen::{damaged_states, loaded_table, tiny_table};
use crate::rng::Rng;

/// Words of a saved state before its rows had a p.
pub(super) const OLD_STATE_WORDS: usize = 611;

/// Lengths of a room for a state, on both sides of 643.
pub(super) const STATE_ROOMS: [usize; 8] = [
    STATE_WORDS,
    STATE_WORDS - 1,
    STATE_WORDS + 1,
    0,
    1,
    300,
    OLD_STATE_WORDS,
    STATE_ROOM_MAX,
];

pub(super) fn starts(cases: &mut Cases) {
    for words in P {
        for room in STATE_ROOMS {
            cases.add(&[room as u64], words);
        }
    }
    for words in
        [0, 1, 6, 7, 8, 14, 217, 224, 225, 231].map(|length| rows_of(33)[..length].to_vec())
    {
        cases.add(&[STATE_WORDS as u64], &words);
    }
    for turn in 0..100 {
        let words = if turn % 3 == 0 {
            cases.faulty()
        } else {
            cases.table()
        };
        let room = STATE_ROOMS[cases.rng.index(STATE_ROOMS.len()) * cases.rng.index(2)];
        cases.add(&[room as u64], &words);
    }
}

/// A place that changes nothing.
pub(super) const NOWHERE: u64 = STATE_ROOM_MAX as u64;

/// Ticks of a run: none, one, a few, and now and then many.
pub(super) fn ticks(rng: &mut Rng) -> u32 {
    match rng.below(12) {
        0 => 0,
        1 => 1,
        2 => rng.word(2, 20_000),
        3..=6 => rng.word(2, 20),
        _ => rng.word(2, 600),
    }
}

/// Ticks after the one tick from this time: as before, and up to the clock's end
/// or past it.
fn more_ticks(rng: &mut Rng, time: u64) -> u32 {
    let left = u64::from(CLOCK_END).saturating_sub(time);
    match rng.below(8) {
        0 => left as u32,
        1 => CLOCK_END,
        2 | 3 if left <= 100_000 => (left as u32).saturating_sub(1),
        _ => ticks(rng),
    }
}

/// The state of a table after so many ticks.
pub(super) fn state_at(words: &[u32], n: u32) -> Vec<u64> {
    let mut state = vec![0; STATE_WORDS];
    fresh_words(words, &mut state);
    run_words(&mut state, n);
    state
}

/// Some changes of one word of a state, with the ends of each word's range
/// among them; the clock brought near its end always.
pub(super) fn changes(rng: &mut Rng, state: &[u64], count: usize) -> Vec<[u64; 2]> {
    let mut drawn = damaged_states(rng, state);
    let mut changes = vec![[1, u64::from(CLOCK_END) - rng.below(300)]];
    for _ in 0..count.min(drawn.len()) {
        let damaged = drawn.swap_remove(rng.index(drawn.len()));
        changes.push([damaged.at as u64, damaged.words[damaged.at]]);
    }
    changes
}

pub(super) fn runs(cases: &mut Cases) {
    let room = STATE_WORDS as u64;
    // Document 01's examples tick by tick.
    for words in &P[..SOUND] {
        for n in 0..=24 {
            cases.add(&[room, n, NOWHERE, 0, 0], words);
        }
    }
    for length in STATE_ROOMS {
        cases.add(&[length as u64, 3, NOWHERE, 0, 5], P[0]);
        cases.add(&[length as u64, 3, 2, 4, 5], P[6]);
    }
    clocks_end(cases);
    for turn in 0..150 {
        let words = if turn % 3 == 0 {
            cases.few_rows(tiny_table)
        } else {
            cases.table()
        };
        let (n, more) = (ticks(&mut cases.rng), ticks(&mut cases.rng));
        cases.add(&[room, n.into(), NOWHERE, 0, more.into()], &words);
    }
    for _ in 0..45 {
        let words = cases.few_rows(loaded_table);
        let n = ticks(&mut cases.rng);
        let state = state_at(&words, n);
        for [at, value] in changes(&mut cases.rng, &state, 8) {
            let time = if at == 1 { value } else { state[1] };
            let more = more_ticks(&mut cases.rng, time);
            cases.add(&[room, n.into(), at, value, more.into()], &words);
        }
    }
    for (words, n, value) in untrue() {
        cases.add(&[room, n, word_at(1, HELD), value, 3], &words);
    }
    red::runs(cases);
}

/// At the clock's end, on either side of it, and no tick or one after.
fn clocks_end(cases: &mut Cases) {
    for (time, more) in (0..3).flat_map(|past| [(past, 0), (past, 1)]) {
        let time = u64::from(CLOCK_END) - 1 + time;
        cases.add(&[STATE_WORDS as u64, 3, 1, time, more], P[0]);
    }
}
