//! Further drawn cases, beside those of [`peer::gen`].

mod limit;
mod states;
mod tables;
mod texts;

pub use limit::{
    any_shape, around_limit, far_tables, full_table, limit_pair, short_cycle_pair, slow_table,
    LimitPair, Patterns, Shape,
};
pub use states::{
    every_bit, followed, row_counts, state_lengths, state_room, state_room_of, ticks,
};
pub use tables::{any_table, damaged, faults_in, off_seven, rubbish, run_table, sound, FAULTS};
pub use texts::{
    any_values, byte_room, byte_room_of, changed, deleted, every_change, inserted, miswritten,
    one_moved,
};
pub use texts::{nameable, one_row_with, rubbish_after, short_text, widest, with_crs};
pub use texts::{TELLING, VALUE_MAX};

use peer::rng::Rng;

/// Words at and around every bound of document 01, at the ends of the narrower
/// and the signed integers, and words whose low bits alone would be in range.
pub const EDGES: [u32; 44] = [
    0,
    1,
    2,
    3,
    31,
    32,
    33,
    62,
    63,
    64,
    65,
    66,
    127,
    128,
    129,
    255,
    256,
    257,
    258,
    319,
    320,
    321,
    65_534,
    65_535,
    65_536,
    65_537,
    65_538,
    65_599,
    65_600,
    65_601,
    99_999,
    131_071,
    131_072,
    131_073,
    0x7fff_ffff,
    0x8000_0000,
    0x8000_0001,
    0x8000_0040,
    0xffff_0000,
    0xffff_0001,
    0xffff_0040,
    u32::MAX - 63,
    u32::MAX - 1,
    u32::MAX,
];

/// A word in or near the range of m and k, at an edge, or any.
pub fn any_word(rng: &mut Rng) -> u32 {
    match rng.below(8) {
        0..=2 => rng.word(0, 66),
        3..=4 => rng.choose(&EDGES).unwrap_or(0),
        5 => (rng.word(0, u32::MAX) << 8) + rng.word(0, 66),
        6 => (rng.word(0, u32::MAX) << 16) + rng.word(0, 66),
        _ => rng.word(0, u32::MAX),
    }
}

/// Whether the even pattern of a pair and its deeply-red one are two: with one mandatory
/// job, with all but one and with all of them they are the same.
pub fn apart(m: u32, k: u32) -> bool {
    1 < m && m + 1 < k
}

/// The length of a room for so much, mostly long enough: on both sides of the
/// limit, and up to `spare` past it.
pub fn room_length(rng: &mut Rng, needed: usize, spare: usize) -> usize {
    match rng.below(20) {
        0 => 0,
        1 | 2 => needed.saturating_sub(1),
        3 => rng.index(needed + 1),
        4..=10 => needed,
        11..=13 => needed + 1,
        _ => needed + rng.index(spare),
    }
}

/// A room for the answer on so many rows, mostly long enough.
pub fn room(rng: &mut Rng, rows: usize) -> Vec<u32> {
    let length = room_length(rng, rows, 40);
    room_of(rng, length)
}

/// A room of this length, filled beforehand: with rubbish, so that a word
/// written or left where it should not be shows.
pub fn room_of(rng: &mut Rng, length: usize) -> Vec<u32> {
    match rng.below(16) {
        0 => vec![0; length],
        1 => vec![u32::MAX; length],
        _ => (0..length).map(|_| rng.bits() as u32).collect(),
    }
}
