//! Rooms for a saved state, and what is done to the words of one.

use peer::dispatch::{CLOCK_END, STATE_WORDS};
use peer::rng::Rng;
use peer::table::ROWS_MAX;

/// A room for a fresh state, mostly long enough.
pub fn state_room(rng: &mut Rng) -> Vec<u64> {
    let length = match rng.below(16) {
        0 => 0,
        1 => rng.index(STATE_WORDS),
        2 | 3 => STATE_WORDS - 1,
        4..=8 => STATE_WORDS,
        9..=11 => STATE_WORDS + 1,
        _ => STATE_WORDS + rng.index(60),
    };
    state_room_of(rng, length)
}

/// A room of this length, filled beforehand: with rubbish, so that a word
/// written or left where it should not be shows.
pub fn state_room_of(rng: &mut Rng, length: usize) -> Vec<u64> {
    match rng.below(16) {
        0 => vec![0; length],
        1 => vec![u64::MAX; length],
        _ => (0..length).map(|_| rng.bits()).collect(),
    }
}

/// Ticks for a run on these words, which is then short or refused: none, up to
/// `most`, all that the clock has room for, one more than that, and 2^32 - 1.
pub fn ticks(rng: &mut Rng, words: &[u64], most: u32) -> u32 {
    let time = words.get(1).copied().unwrap_or(0);
    let room = u64::from(CLOCK_END).saturating_sub(time) as u32;
    // From time 0 no run is past the clock's end, and 2^32 - 1 ticks are long.
    match (rng.below(10), room.checked_add(1)) {
        (0, _) => 0,
        (1, _) if room <= most => room,
        (2, Some(past)) => past,
        (3, Some(past)) => rng.word(past, u32::MAX),
        (4, Some(_)) => u32::MAX,
        _ => rng.word(0, most),
    }
}

/// The words with each bit of each of them turned over in turn.
pub fn every_bit(words: &[u64]) -> impl Iterator<Item = Vec<u64>> + '_ {
    let places = (0..words.len()).flat_map(|at| (0..64).map(move |bit| (at, bit)));
    places.map(|(at, bit)| {
        let mut turned = words.to_vec();
        turned[at] ^= 1 << bit;
        turned
    })
}

/// Numbers of rows in their range and past it, and numbers whose low bits alone
/// would be in it.
pub fn row_counts() -> impl Iterator<Item = u64> {
    let bases = [0, 1 << 8, 1 << 16, 1 << 31, 1 << 32, 1 << 33, 1 << 63];
    let near = |base: u64| (0..=ROWS_MAX as u64 + 8).map(move |rows| base + rows);
    bases.into_iter().flat_map(near).chain([u64::MAX])
}

/// A state with zeros, with rubbish and with itself after it, as far as a length asks for
/// more words than it has.
pub fn followed(rng: &mut Rng, good: &[u64], length: usize) -> [Vec<u64>; 3] {
    let more = length.saturating_sub(good.len());
    let rubbish = state_room_of(rng, more);
    let itself = good.iter().copied().cycle().take(more).collect();
    [vec![0; more], rubbish, itself].map(|after| [good, &after].concat())
}

/// Lengths on both sides of 643 words, and some that are far from it.
pub fn state_lengths() -> impl Iterator<Item = usize> {
    let twice = 2 * STATE_WORDS;
    let far = [twice - 1, twice, twice + 1, 65_536 + STATE_WORDS];
    (0..=STATE_WORDS + 40).chain(far)
}
