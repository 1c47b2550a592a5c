//! The number of met marks by its sentence: counted anew from the window, one mark
//! at a time. None of it is the dispatcher's, which amends the number instead.

use crate::dispatch::{HEAD_WORDS, HELD, SAVED_ROW_WORDS, WINDOW};

/// Where k stands in a saved row.
const K: usize = 5;

/// Whether the mark that has so many newer ones is met: "the newest mark is bit
/// 0, 1 for met, older marks move up". A word has no marks past its last bit.
fn is_met(window: u64, newer: u32) -> bool {
    window
        .checked_shr(newer)
        .is_some_and(|marks| marks & 1 == 1)
}

/// Met ones among so many of the newest marks, counted one by one. Among k of them
/// it is the number that a row of that window keeps.
pub fn met_among(window: u64, newest: u32) -> u32 {
    (0..newest).filter(|&newer| is_met(window, newer)).count() as u32
}

/// The first row of a saved state whose number of met marks is not that of its
/// window, with both numbers: "Each tick, run and fresh state keeps it true".
pub fn untrue(words: &[u64]) -> Option<(usize, u64, u64)> {
    let rows = words.first().map_or(0, |&rows| rows as usize);
    let saved = words.get(HEAD_WORDS..).unwrap_or_default();
    let numbers = saved
        .chunks_exact(SAVED_ROW_WORDS)
        .take(rows)
        .map(|row| (row[HELD], met_among(row[WINDOW], row[K] as u32).into()));
    let mut numbered = numbers.enumerate();
    numbered.find_map(|(row, (kept, met))| (kept != met).then_some((row, kept, met)))
}
