//! Texts for the converter (document 02, 4/14): of either form, of both at once, sound
//! and damaged.

use super::texts::{damage_text, short_words};
use crate::convert::Way;
use crate::pattern::{EVEN, RED};
use crate::rng::Rng;
use crate::table::ROW_WORDS;
use crate::text::{line, text_in, KEYS, OLD_KEYS};

/// The table with every row even.
pub fn even(words: &[u32]) -> Vec<u32> {
    let mut words = words.to_vec();
    for row in words.chunks_exact_mut(ROW_WORDS) {
        row[ROW_WORDS - 1] = EVEN;
    }
    words
}

/// The text of words in the form that is read on this way.
pub fn form_read(way: Way, words: &[u32]) -> Vec<u8> {
    match way {
        Way::ToNew => text_in(&OLD_KEYS, words),
        Way::ToOld => text_in(&KEYS, words),
    }
}

/// The text of words with some rows in one form and some in the other.
pub fn mixed_forms(rng: &mut Rng, words: &[u32]) -> Vec<u8> {
    let rows = words.chunks_exact(ROW_WORDS);
    let mut out = Vec::new();
    line(&mut out, "rows", rows.len() as u64);
    for row in rows {
        let lines = ROW_WORDS - rng.index(2);
        for (key, word) in KEYS.iter().zip(row).take(lines) {
            line(&mut out, key, u64::from(*word));
        }
    }
    out
}

/// A text of one to three rows for this way, with none to three damages: mostly of the
/// form that is read, and mostly with every row even.
pub fn carried_text(rng: &mut Rng, way: Way) -> Vec<u8> {
    let mut words = short_words(rng);
    if !rng.once_in(4) {
        words = even(&words);
    }
    if rng.once_in(8) {
        let row = rng.index(words.len() / ROW_WORDS);
        if let Some(p) = words.get_mut(row * ROW_WORDS + ROW_WORDS - 1) {
            *p = rng.choose(&[RED, RED, 2, 99_999]).unwrap_or(RED);
        }
    }
    let mut text = match rng.below(12) {
        0 => form_read(way.back(), &words),
        1 => mixed_forms(rng, &words),
        _ => form_read(way, &words),
    };
    for _ in 0..rng.choose(&[0, 0, 1, 1, 1, 2, 3]).unwrap_or(1) {
        match rng.below(3) {
            0 => damage_lines(rng, &mut text),
            _ => damage_text(rng, &mut text),
        }
    }
    text
}

/// A line lost, said twice, changed about with another, or in another's place.
pub fn damage_lines(rng: &mut Rng, text: &mut Vec<u8>) {
    let mut lines: Vec<&[u8]> = text.split_inclusive(|&byte| byte == b'\n').collect();
    if lines.is_empty() {
        return;
    }
    let (at, other) = (rng.index(lines.len()), rng.index(lines.len()));
    match rng.below(4) {
        0 => {
            lines.remove(at);
        }
        1 => lines.insert(at, lines[at]),
        2 => lines.swap(at, other),
        _ => lines[at] = lines[other],
    }
    *text = lines.concat();
}
