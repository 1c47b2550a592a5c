//! Words and bytes lent to the first program, with watched ones on both sides.

use peer::dispatch::STATE_WORDS;
use peer::rng::Rng;
use peer::table::{ROWS_MAX, ROW_WORDS};
use peer::text::TEXT_MAX;

/// Watched words before the run, at least.
const BEFORE: usize = 8;

/// Words of the three widths that are lent.
pub trait Word: Copy + PartialEq {
    /// Watched words after the run: more than the longest answer in such words,
    /// so that one written to a room without any space is still caught here.
    const AFTER: usize;

    /// A word out of 64 bits.
    fn of_bits(bits: u64) -> Self;
}

/// Texts, and rooms for them.
impl Word for u8 {
    const AFTER: usize = TEXT_MAX + 8;

    fn of_bits(bits: u64) -> u8 {
        bits as u8
    }
}

/// Tables, and rooms for them and for response times.
impl Word for u32 {
    const AFTER: usize = ROWS_MAX * ROW_WORDS + 8;

    fn of_bits(bits: u64) -> u32 {
        bits as u32
    }
}

/// Saved states, and rooms for them.
impl Word for u64 {
    const AFTER: usize = STATE_WORDS + 8;

    fn of_bits(bits: u64) -> u64 {
        bits
    }
}

/// "No refusal alters a lent word or byte, an accepted call alters only the
/// room its answer fills": a run of words inside a larger buffer, so that what
/// is written beside the run can be found.
pub struct Lent<W> {
    buffer: Vec<W>,
    /// The buffer as it was lent.
    lent: Vec<W>,
    start: usize,
    len: usize,
}

impl<W: Word> Lent<W> {
    /// Lends a copy of the words. The run begins at a drawn distance, so that
    /// nothing leans on an alignment of more than one word.
    pub fn new(rng: &mut Rng, words: &[W]) -> Lent<W> {
        Lent::followed(rng, words, &[])
    }

    /// The same with these words right after the run: they may be what a callee
    /// that goes past the end would be glad to find.
    pub fn followed(rng: &mut Rng, words: &[W], after: &[W]) -> Lent<W> {
        let key = rng.bits();
        let (start, len) = (BEFORE + rng.index(4), words.len());
        let end = start + len + after.len();
        let mut buffer = Vec::with_capacity(end + W::AFTER);
        buffer.extend((0..start).map(|at| watched::<W>(key, at)));
        buffer.extend_from_slice(words);
        buffer.extend_from_slice(after);
        buffer.extend((end..end + W::AFTER).map(|at| watched::<W>(key, at)));
        Lent {
            lent: buffer.clone(),
            buffer,
            start,
            len,
        }
    }

    /// Where the run begins. The pointer is the whole buffer's: a write beside
    /// the run is a fault to be reported, and must not be undefined here.
    pub fn pointer(&mut self) -> *mut W {
        self.buffer.as_mut_ptr().wrapping_add(self.start)
    }

    /// Words in the run.
    pub fn len(&self) -> usize {
        self.len
    }

    pub fn is_empty(&self) -> bool {
        self.len == 0
    }

    /// The run as it now stands.
    pub fn words(&self) -> &[W] {
        &self.buffer[self.start..self.start + self.len]
    }

    /// The words on both sides that are not what they were: each with its place,
    /// counted from the run's first word, and what now stands there.
    pub fn altered_beside(&self) -> Vec<(isize, W)> {
        let end = self.start + self.len;
        let sides = (0..self.start).chain(end..self.buffer.len());
        let altered = sides.filter(|&at| self.buffer[at] != self.lent[at]);
        let place = |at: usize| (at as isize - self.start as isize, self.buffer[at]);
        altered.map(place).collect()
    }

    /// Whether the run now holds these words and nothing beside it was altered.
    pub fn holds(&self, expected: &[W]) -> bool {
        let end = self.start + self.len;
        self.words() == expected
            && self.buffer[..self.start] == self.lent[..self.start]
            && self.buffer[end..] == self.lent[end..]
    }
}

/// The watched word at a place: rubbish, so that no likely answer passes for it.
fn watched<W: Word>(key: u64, at: usize) -> W {
    let mixed = (key ^ at as u64).wrapping_mul(0x9E37_79B9_7F4A_7C15);
    W::of_bits(mixed ^ mixed >> 32)
}
