//! Task texts, sound and damaged.

use std::sync::OnceLock;

use super::faulty::{faulty_table, repeat_id};
use super::seventh::seventh_line_texts;
use super::tables::table;
use super::VALUE_MAX;
use crate::rng::Rng;
use crate::table::{ROWS_MAX, ROW_WORDS, WORD_MAX};
use crate::text::text_of;

/// The text of a well-formed table.
pub fn good_text(rng: &mut Rng) -> Vec<u8> {
    text_of(&table(rng))
}

/// A table of one to three rows for texts: short enough to be looked at byte by
/// byte, and sometimes with fields out of range.
pub(super) fn short_words(rng: &mut Rng) -> Vec<u32> {
    let mut words = if rng.once_in(3) {
        faulty_table(rng)
    } else {
        table(rng)
    };
    words.truncate(ROW_WORDS * (1 + rng.index(3)));
    if rng.once_in(10) {
        repeat_id(rng, &mut words);
    }
    for word in &mut words {
        *word = (*word).min(VALUE_MAX);
    }
    words
}

/// A text with none to three damages; nearly all of them short ones.
pub fn damaged_text(rng: &mut Rng) -> Vec<u8> {
    let mut text = if rng.once_in(20) {
        good_text(rng)
    } else {
        text_of(&short_words(rng))
    };
    if rng.once_in(12) {
        static SPECIALS: OnceLock<Vec<Vec<u8>>> = OnceLock::new();
        let specials = SPECIALS.get_or_init(special_texts);
        text.clone_from(&specials[rng.index(specials.len())]);
    }
    let damages = rng.choose(&[0, 1, 1, 1, 1, 2, 3]).unwrap_or(1);
    for _ in 0..damages {
        damage_text(rng, &mut text);
    }
    text
}

/// Bytes that stand in texts or nearly do, and the ends 0 and 255.
fn any_byte(rng: &mut Rng) -> u8 {
    let likely = b"0123456789=\n\r rowsidctdmkp0019\0\xff-+.,ROW\t:/";
    if rng.once_in(6) {
        rng.bits() as u8
    } else {
        rng.choose(likely).unwrap_or(0)
    }
}

pub(super) fn damage_text(rng: &mut Rng, text: &mut Vec<u8>) {
    let at = rng.index(text.len() + 1);
    let byte = any_byte(rng);
    match rng.below(12) {
        0..=2 => {
            if let Some(old) = text.get_mut(at) {
                *old = byte;
            }
        }
        3 | 4 => text.insert(at, byte),
        5 | 6 => {
            text.drain(at..(at + 1).min(text.len()));
        }
        7 => text.truncate(at),
        8 => text.extend(std::iter::repeat_n(byte, 1 + rng.index(3))),
        9 => *text = with_crs(text),
        _ => damage_value(rng, text),
    }
}

/// A value after one of the `=` signs written in a way it may not be, or as some
/// other number of the form.
fn damage_value(rng: &mut Rng, text: &mut Vec<u8>) {
    let signs = text.iter().enumerate().filter(|(_, byte)| **byte == b'=');
    let signs: Vec<usize> = signs.map(|(at, _)| at).collect();
    let Some(sign) = rng.choose(&signs) else {
        return;
    };
    let end = text[sign..].iter().position(|&byte| byte == b'\n');
    let end = end.map_or(text.len(), |length| sign + length);
    let values: [&[u8]; 14] = [
        b"", b"0", b"00", b"01", b"1", b"33", b"32", b"99999", b"100000", b"65536", b"-1", b"+1",
        b"123456", b"1 ",
    ];
    let value = rng.choose(&values).unwrap_or(b"");
    text.splice(sign + 1..end, value.iter().copied());
}

/// Every LF with a CR before it.
fn with_crs(text: &[u8]) -> Vec<u8> {
    let mut out = Vec::with_capacity(text.len() + 200);
    for &byte in text {
        if byte == b'\n' {
            out.push(b'\r');
        }
        out.push(byte);
    }
    out
}

/// The seven lines of a sound row.
const ROW_LINES: &str = "id=1\nc=1\nt=2\nd=2\nm=1\nk=1\np=1\n";

/// First lines, sound and not, the limits of their value among them.
const FIRST_LINES: [&str; 30] = [
    "",
    "\n",
    "r",
    "rows",
    "rows=",
    "rows=\n",
    "rows=0",
    "rows=0\n",
    "rows=00\n",
    "rows=01\n",
    "rows=1",
    "rows=1\n",
    "rows=32\n",
    "rows=33",
    "rows=33\n",
    "rows=99999",
    "rows=99999\n",
    "rows=100000\n",
    "rows=123456",
    "rows=1\r\n",
    "rows= 1\n",
    "rows=1 \n",
    "Rows=1\n",
    "rows =1\n",
    "row=1\n",
    "rows:1\n",
    "rows=-1\n",
    "rows=+1\n",
    "ROWS=1\n",
    "\u{feff}rows=1\n",
];

/// Texts worth reading every time: each key, value and line end gone wrong once,
/// the first line's limits with rubbish after it, ends too early and too late, and
/// the line p gone wrong in each way.
pub fn special_texts() -> Vec<Vec<u8>> {
    let one = format!("rows=1\n{ROW_LINES}");
    let mut texts = Vec::new();
    for first in FIRST_LINES {
        for rest in ["", "rubbish", "\n", "\0", ROW_LINES] {
            texts.push(format!("{first}{rest}").into_bytes());
        }
    }
    for at in 0..one.len() {
        texts.push(one.as_bytes()[..at].to_vec());
        for byte in [0, 255, b'\n', b'\r', b'0', b'='] {
            let mut changed = one.clone().into_bytes();
            changed[at] = byte;
            texts.push(changed);
        }
    }
    for rest in ["", "\n", " ", "\0", "\u{ff}", "id=1\n", ROW_LINES, &one] {
        texts.push(format!("{one}{rest}").into_bytes());
    }
    texts.extend(seventh_line_texts());
    texts
}

/// Texts far longer than any that is accepted.
pub fn long_texts() -> Vec<Vec<u8>> {
    let many = vec![1; 40 * ROW_WORDS];
    let mut sound = text_of(&longest_table());
    sound.extend_from_slice(&text_of(&many));
    vec![
        sound,
        text_of(&many),
        vec![b'9'; 200_000],
        [b"rows=".to_vec(), vec![b'1'; 200_000]].concat(),
        [b"rows=99999\n".to_vec(), vec![255; 200_000]].concat(),
        [b"rows=32\n".to_vec(), vec![b'\n'; 200_000]].concat(),
    ]
}

/// A table whose text has no value that could be a byte longer: 1,512 bytes.
pub fn longest_table() -> Vec<u32> {
    let ids = (0..ROWS_MAX as u32).map(|row| WORD_MAX - row);
    ids.flat_map(|id| [id, WORD_MAX, WORD_MAX, WORD_MAX, 64, 64, id % 2])
        .collect()
}
