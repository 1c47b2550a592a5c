//! Inputs of the printing program, and questions about one job.

use super::tables::end_or_any;
use super::texts::{damage_text, damaged_text, good_text};
use super::VALUE_MAX;
use crate::rng::Rng;
use crate::text::line;

/// A first line and a text, each of them sound more often than not.
pub fn report_input(rng: &mut Rng) -> Vec<u8> {
    let mut input = Vec::new();
    let ticks = match rng.below(4) {
        0 => rng.word(0, 3),
        1 => rng.word(0, VALUE_MAX),
        _ => rng.word(0, 2_000),
    };
    line(&mut input, "ticks", u64::from(ticks));
    if rng.once_in(6) {
        damage_text(rng, &mut input);
    }
    let text = if rng.once_in(3) {
        damaged_text(rng)
    } else {
        good_text(rng)
    };
    input.extend_from_slice(&text);
    if rng.once_in(20) {
        damage_text(rng, &mut input);
    }
    input
}

/// First lines of an input, sound and not.
const FIRST_LINES: [&str; 21] = [
    "",
    "\n",
    "t",
    "ticks",
    "ticks=",
    "ticks=\n",
    "ticks=0\n",
    "ticks=00\n",
    "ticks=01\n",
    "ticks=5",
    "ticks=99999\n",
    "ticks=100000\n",
    "ticks=1\r\n",
    "ticks=1 \n",
    " ticks=1\n",
    "Ticks=1\n",
    "tick=1\n",
    "ticks:1\n",
    "ticks=-1\n",
    "ticks=1\n\n",
    "ticks=1\nticks=1\n",
];

/// Each of those first lines before a sound text and before faulty ones.
pub fn special_inputs() -> Vec<Vec<u8>> {
    let sound = "rows=1\nid=1\nc=1\nt=2\nd=2\nm=1\nk=1\np=0\n";
    let rests = [
        "",
        sound,
        "rows=0\n",
        "rows=33\nrubbish",
        "rows=1",
        "rows=1\nid=0",
        "rows=1\nid=1\nc=1\nt=2\nd=2\nm=1\nk=1\n",
        "rows=1\nid=1\nc=1\nt=2\nd=2\nm=1\nk=1\np=2\n",
    ];
    let mut inputs = Vec::new();
    for first in FIRST_LINES {
        for rest in rests {
            inputs.push(format!("{first}{rest}").into_bytes());
        }
    }
    inputs
}

/// m, k and a job number: pairs in and out of range, jobs small, near multiples
/// of k, drawn freely, and the last.
pub fn job_question(rng: &mut Rng) -> (u32, u32, u32) {
    let k = match rng.below(12) {
        0 => rng.choose(&[0, 65, 66, u32::MAX]).unwrap_or(0),
        1 => rng.word(0, u32::MAX),
        _ => end_or_any(rng, 1, 64),
    };
    let m = match rng.below(12) {
        0 => rng.choose(&[0, u32::MAX, k.wrapping_add(1)]).unwrap_or(0),
        1 => rng.word(0, u32::MAX),
        _ => end_or_any(rng, 1, k.max(1)),
    };
    let a = match rng.below(5) {
        0 => rng.word(0, 200),
        1 => u32::MAX - rng.word(0, 2),
        2 => rng.word(0, u32::MAX),
        _ => {
            let cycles = rng.word(0, u32::MAX / k.max(1));
            (cycles * k.max(1))
                .wrapping_add(rng.word(0, 2))
                .wrapping_sub(1)
        }
    };
    (m, k, a)
}
