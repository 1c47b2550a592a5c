//! Spare by its sentence, one mark at a time, and by what the pedal team reads
//! in it; and the figure that stood there before. None of it is the dispatcher's.
//!
//! The time each takes grows with k. In a table that is at most 64, the marks
//! that a window has room for.

use super::held::met_among;

/// "Spare becomes the largest n for which the newest k - n marks still hold at
/// least m; if the whole window holds fewer than m it is 0." Every n is tried,
/// from k down.
pub fn by_sentence(window: u64, m: u32, k: u32) -> u32 {
    let holds = |n: &u32| met_among(window, k - n) >= m;
    (0..=k).rev().find(holds).unwrap_or(0)
}

/// The window after a miss: "older marks move up, the mark that reaches bit k is
/// cut". Of 64 marks the oldest has left the word by then.
fn missed_once(window: u64, k: u32) -> u64 {
    let reached = 1u64.checked_shl(k).unwrap_or(0);
    window << 1 & !reached
}

/// "misses left": how many misses in a row leave at least m met marks in the
/// window after each. No more than k are tried: nothing else is left after them.
pub fn by_misses(window: u64, m: u32, k: u32) -> u32 {
    let after = std::iter::successors(Some(window), |&window| Some(missed_once(window, k)));
    let borne = after.skip(1).take(k as usize);
    borne
        .take_while(|&window| met_among(window, k) >= m)
        .count() as u32
}

/// "the number of met marks in the window less m, or 0 if that is negative": what
/// spare was before document 02. It leaves out which mark is cut next.
pub fn met_less_m(window: u64, m: u32) -> u32 {
    window.count_ones().saturating_sub(m)
}
