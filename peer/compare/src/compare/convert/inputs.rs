//! Texts that several of the comparisons begin with.

use peer::convert::Way;
use peer::gen::{even, form_read};
use peer::rng::Rng;
use peer::table::{ROW_WORDS, WORD_MAX};

use crate::draw::sound;

/// A sound table of so many rows, every one of them even.
pub fn even_rows(rng: &mut Rng, rows: usize) -> Vec<u32> {
    even(&sound(rng, rows, WORD_MAX))
}

/// A good text of so many rows.
pub fn good(rng: &mut Rng, way: Way, rows: usize) -> Vec<u8> {
    form_read(way, &even_rows(rng, rows))
}

/// A good text of so many rows, few of its values longer than two digits.
pub fn short(rng: &mut Rng, way: Way, rows: usize) -> Vec<u8> {
    let mut words = even(&sound(rng, rows, 99));
    for (row, seven) in words.chunks_exact_mut(ROW_WORDS).enumerate() {
        seven[0] = rng.word(1, 9) + 10 * row as u32;
    }
    form_read(way, &words)
}

/// The lines of a text, each with its LF.
pub fn lines(text: &[u8]) -> Vec<&[u8]> {
    text.split_inclusive(|&byte| byte == b'\n').collect()
}
