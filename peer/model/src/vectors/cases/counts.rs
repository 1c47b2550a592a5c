//! Cases on what is read off a row of a state: its counts, and its met marks.

use super::super::COUNT_ROOM_MAX;
use super::states::{changes, state_at, ticks, NOWHERE, OLD_STATE_WORDS, STATE_ROOMS};
use super::{rows_of, Cases, P, SOUND};
use crate::counts::COUNT_WORDS;
use crate::dispatch::{CLOCK_END, HEAD_WORDS, HELD, SAVED_ROW_WORDS, STATE_WORDS, WINDOW};
use crate::gen::tiny_table;
use crate::table::ROW_WORDS;

pub(super) fn counts(cases: &mut Cases) {
    let room = STATE_WORDS as u64;
    for words in &P[..SOUND] {
        for (row, counts) in [
            (0, 7),
            (1, 7),
            (2, 8),
            (31, 7),
            (32, 7),
            (0, 6),
            (0, 0),
            (1, 16),
        ] {
            cases.add(&[room, 24, NOWHERE, 0, row, counts], words);
        }
        cases.add(&[room, 24, NOWHERE, 0, CLOCK_END.into(), 7], words);
        cases.add(&[room, 24, 2, 25, 0, 6], words);
        for length in [OLD_STATE_WORDS, STATE_WORDS - 1, STATE_WORDS + 1] {
            cases.add(&[length as u64, 24, NOWHERE, 0, 0, 7], words);
        }
    }
    for _ in 0..36 {
        let words = cases.few_rows(tiny_table);
        let n = ticks(&mut cases.rng);
        let state = state_at(&words, n);
        for [at, value] in changes(&mut cases.rng, &state, 2) {
            let row = cases.rng.below(state[0] + 1);
            let length = [COUNT_WORDS, COUNT_WORDS - 1, COUNT_ROOM_MAX];
            let length = length[cases.rng.index(3) * cases.rng.index(2)];
            let head = [room, n.into(), NOWHERE, 0, row, COUNT_WORDS as u64];
            cases.add(&head, &words);
            cases.add(&[room, n.into(), at, value, row, length as u64], &words);
        }
    }
    spares(cases);
    for (words, n, value) in untrue() {
        cases.add(&[room, n, word_at(1, HELD), value, 1, 7], &words);
    }
}

/// A word of a row, as a place of a saved state.
pub(super) fn word_at(row: usize, word: usize) -> u64 {
    (HEAD_WORDS + row * SAVED_ROW_WORDS + word) as u64
}

/// Windows that tell the newest marks from the others, (m, k) and the marks:
/// document 02's two first, then met marks at the ends and in the middle, as many
/// as m and one fewer, all of them and none.
const SPARES: [(u32, u32, u64); 22] = [
    (1, 3, 0b100),
    (1, 3, 0b001),
    (1, 3, 0b010),
    (1, 3, 0b000),
    (2, 3, 0b011),
    (2, 3, 0b101),
    (2, 3, 0b010),
    (3, 5, 0b01101),
    (1, 1, 0),
    (1, 64, 1),
    (1, 64, 1 << 31),
    (1, 64, 1 << 32),
    (1, 64, 1 << 63),
    (1, 64, u64::MAX),
    (2, 64, 1 << 63 | 1),
    (2, 64, 1 << 63),
    (32, 64, u64::MAX >> 32),
    (32, 64, u64::MAX << 32),
    (32, 64, 0x5555_5555_5555_5555),
    (63, 64, u64::MAX >> 1),
    (63, 64, u64::MAX << 1),
    (64, 64, u64::MAX),
];

/// Each of the windows in the first row of a table and in the second by turns,
/// beside a row of another k. The row has a job in each tick, with more work than
/// it has ticks: it misses so many that as many met marks are left as the window
/// holds, which then takes their place.
fn spares(cases: &mut Cases) {
    let (room, counts) = (STATE_WORDS as u64, COUNT_WORDS as u64);
    for (turn, (m, k, window)) in SPARES.into_iter().enumerate() {
        let row = turn % 2;
        let mut words = [7, 1, 4, 4, 2, 6, 0, 8, 1, 4, 4, 2, 6, 1];
        words[row * ROW_WORDS + 1..][..5].copy_from_slice(&[2, 1, 1, m, k]);
        let missed = u64::from(k - window.count_ones());
        let at = word_at(row, WINDOW);
        cases.add(&[room, missed, at, window, row as u64, counts], &words);
    }
}

/// k of the windows at whose ends the number of met marks is looked at.
const END_KS: [u32; 6] = [1, 2, 3, 32, 63, 64];

/// Tables and ticks after which the window of row 1 has k marks and is, in turn:
/// all met, all but the newest, the oldest alone, none, the newest alone, all but
/// the oldest, and all again.
fn ends(k: u32) -> [(Vec<u32>, u64); 7] {
    // Row 0 comes first: in k ticks of k + 1, or in one tick of 2k.
    let row_1 = [2, 1, 1, 1, 1, k, 0];
    let missing = [[1, k, k + 1, k + 1, 1, 1, 1], row_1].concat();
    let meeting = [[1, 1, 2 * k, 2 * k, 1, 1, 0], row_1].concat();
    let k = u64::from(k);
    [
        (missing.clone(), 0),
        (missing.clone(), 1),
        (missing.clone(), k - 1),
        (missing.clone(), k),
        (missing, k + 1),
        (meeting.clone(), k),
        (meeting, k + 1),
    ]
}

/// The same with a number of met marks for row 1 that is not true: one more, one
/// fewer.
pub(super) fn untrue() -> impl Iterator<Item = (Vec<u32>, u64, u64)> {
    let cases = END_KS.into_iter().flat_map(ends);
    cases.flat_map(|(words, n)| {
        let held = state_at(&words, n as u32)[word_at(1, HELD) as usize];
        let values = [held + 1, held.wrapping_sub(1)];
        values.map(|value| (words.clone(), n, value))
    })
}

pub(super) fn held(cases: &mut Cases) {
    let room = STATE_WORDS as u64;
    let last = u64::from(u32::MAX);
    for (words, n) in P[..SOUND]
        .iter()
        .flat_map(|words| [(words, 0), (words, 24)])
    {
        for row in [0, 1, 2, 31, 32, last] {
            cases.add(&[room, n, NOWHERE, 0, row], words);
        }
    }
    for (words, n) in END_KS.into_iter().flat_map(ends) {
        for row in [0, 1, 2] {
            cases.add(&[room, n, NOWHERE, 0, row], &words);
        }
    }
    for row in [0, 1, 2, 31, 32, last] {
        cases.add(&[room, 70, NOWHERE, 0, row], &rows_of(1));
    }
    for (rows, row) in [(31, 30), (31, 31), (32, 0), (32, 31), (32, 32), (32, last)] {
        cases.add(&[room, 70, NOWHERE, 0, row], &rows_of(rows));
    }
    for _ in 0..40 {
        let words = cases.few_rows(tiny_table);
        let n = ticks(&mut cases.rng);
        let row = cases.rng.below((words.len() / ROW_WORDS) as u64 + 1);
        cases.add(&[room, n.into(), NOWHERE, 0, row], &words);
    }
    held_damaged(cases);
    held_no_state(cases);
}

/// The number of met marks as it stands there, true or not; another row's, and
/// other words, make no difference.
fn held_damaged(cases: &mut Cases) {
    let room = STATE_WORDS as u64;
    for (words, n, value) in untrue() {
        cases.add(&[room, n, word_at(1, HELD), value, 1], &words);
    }
    for value in [0, 2, 3, 1 << 32, (1 << 32) + 3, 1 << 63, u64::MAX] {
        for row in [0, 1] {
            cases.add(&[room, 24, word_at(1, HELD), value, row], P[0]);
        }
    }
    for at in [1, 2, word_at(1, 0), word_at(1, WINDOW), word_at(2, HELD)] {
        for row in [0, 1, 2] {
            cases.add(&[room, 24, at, u64::MAX, row], P[0]);
        }
    }
    // The last word of the room, for a table without a row 31 and one with it.
    for rows in [31, 32] {
        cases.add(&[room, 3, room - 1, 77, 31], &rows_of(rows));
    }
}

/// Rooms that hold no state, and numbers of rows that no state has; a room with a
/// number of rows and nothing else that was laid there.
fn held_no_state(cases: &mut Cases) {
    let room = STATE_WORDS as u64;
    for length in STATE_ROOMS
        .into_iter()
        .chain([2, 3, 579, 610, 612, 641, 645])
    {
        for row in [0, 2] {
            cases.add(&[length as u64, 3, NOWHERE, 0, row], P[0]);
            cases.add(&[length as u64, 3, 0, 1, row], P[SOUND]);
        }
    }
    for rows in [0, 1, 2, 3, 31, 32, 33, 1 << 32, (1 << 32) + 1, u64::MAX] {
        for row in [0, 1, 2, 31] {
            cases.add(&[room, 24, 0, rows, row], P[0]);
            cases.add(&[room, 24, 0, rows, row], P[SOUND]);
        }
    }
}
