//! Inputs far longer than any that is accepted, and those about as long.

use peer::gen::{long_texts, longest_table};
use peer::rng::Rng;
use peer::table::{ROWS_MAX, ROW_WORDS, WORD_MAX};
use peer::text::text_of;

use super::{input_of, near, same_report, same_report_in};
use crate::course::{Compared, Course};
use crate::draw::{rubbish_after, sound, widest, TELLING};

/// Rounds of inputs of up to 100,000 bytes.
const FAR: u32 = 500;

/// The longest inputs.
const BYTES: usize = 100_000;

/// So many bytes of rubbish: one of them over and over, or any.
pub fn rubbish(rng: &mut Rng, length: usize) -> Vec<u8> {
    match rng.below(4) {
        0 => vec![rng.choose(TELLING).unwrap_or(0); length],
        1 => {
            let rows = text_of(&sound(rng, 4, WORD_MAX));
            rows[7..].iter().copied().cycle().take(length).collect()
        }
        2 => (0..length)
            .map(|_| rng.choose(TELLING).unwrap_or(0))
            .collect(),
        _ => (0..length).map(|_| rng.bits() as u8).collect(),
    }
}

/// A good input with a tail, with a middle, with more rows than it says and with
/// fewer, a first line without an end, and rubbish from the start.
pub fn far_inputs(rng: &mut Rng, length: usize) -> Vec<Vec<u8>> {
    let rows = 1 + rng.index(ROWS_MAX);
    let good = input_of(rng.word(0, 99_999), &sound(rng, rows, WORD_MAX));
    let tail = rubbish(rng, length);
    let at = rng.index(good.len());
    let count = 33 + rng.index(60);
    let many = text_of(&sound(rng, count, WORD_MAX));
    let first = many.iter().position(|&byte| byte == b'\n').unwrap_or(0);
    let drawn = rng.choose(&[1, 31, 32, 34, 99_999]).unwrap_or(1);
    let said = |rows: u32| {
        let head = format!("ticks=9\nrows={rows}");
        [head.as_bytes(), &many[first..], &tail].concat()
    };
    let digit = rng.choose(b"0123456789").unwrap_or(b'0');
    vec![
        [&good[..], &tail].concat(),
        [&good[..at], &tail, &good[at..]].concat(),
        said(0),
        said(33),
        said(drawn),
        [b"ticks=", &vec![digit; length][..]].concat(),
        [b"ticks=1\nrows=", &vec![digit; length][..]].concat(),
        tail,
    ]
}

/// Up to 100,000 bytes.
pub fn far(course: &mut Course) -> Compared {
    for round in 0..FAR {
        let length = match round % 8 {
            0 => BYTES,
            1..=3 => course.rng.index(BYTES),
            _ => course.rng.index(5_000),
        };
        for input in far_inputs(&mut course.rng, length) {
            same_report(course, &input)?;
        }
    }
    for text in long_texts() {
        same_report_in(course, &[b"ticks=99999\n", &text[..]].concat(), near)?;
        same_report_in(course, &text, near)?;
    }
    Ok(())
}

/// The longest input that is accepted, 1,524 bytes, and the longest of the form,
/// 1,844 bytes: each for several first lines, and with a byte or more after it.
pub fn longest_inputs(rng: &mut Rng) -> Vec<Vec<u8>> {
    let nines = vec![99_999; ROWS_MAX * ROW_WORDS];
    let mut inputs = Vec::new();
    for words in [longest_table(), widest(rng), nines] {
        for ticks in [0, 24, 99_999] {
            // The second program walks through every tick for the longest table.
            let good = input_of(ticks, &words);
            inputs.push(good.clone());
            for &byte in b"\n09=i\r\0\xff" {
                inputs.push([&good[..], &[byte]].concat());
                let further = rubbish_after(rng);
                inputs.push([&good[..], &[byte], &further].concat());
            }
            for length in [
                1_525, 1_845, 1_846, 1_856, 2_047, 2_048, 2_049, 4_096, 4_097,
            ] {
                let more = rubbish(rng, length - good.len().min(length));
                inputs.push([&good[..], &more].concat());
            }
        }
    }
    inputs
}

pub fn near_longest(course: &mut Course) -> Compared {
    for input in longest_inputs(&mut course.rng) {
        same_report_in(course, &input, near)?;
    }
    Ok(())
}
