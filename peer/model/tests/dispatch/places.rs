//! Where the words of a saved state stand, written down apart from the program's own list.

/// The last time that a state can have.
pub const CLOCK_END: u64 = 4_294_967_295;

// Places of a saved row's words.
pub const C: usize = 1;
pub const T: usize = 2;
pub const D: usize = 3;
pub const M: usize = 4;
pub const K: usize = 5;
pub const P: usize = 6;
pub const WAIT: usize = 7;
pub const PLACE: usize = 8;
pub const WORK: usize = 9;
pub const LEFT: usize = 10;
pub const KIND: usize = 11;
pub const WINDOW: usize = 12;
pub const RELEASED: usize = 13;
pub const MM: usize = 14;
pub const BROKEN: usize = 18;
pub const HELD: usize = 19;

/// The words of one row.
pub fn row(at: usize) -> std::ops::Range<usize> {
    3 + 20 * at..3 + 20 * (at + 1)
}
