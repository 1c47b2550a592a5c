//! Task texts, changed here and there, and rooms for them.

use peer::gen::{faulty_table, table};
use peer::rng::Rng;
use peer::table::{ROWS_MAX, ROW_WORDS, WORD_MAX};
use peer::text::{text_of, KEYS};

use super::{room_length, sound, EDGES};

/// The largest number that a value can name.
pub const VALUE_MAX: u32 = 99_999;

/// Bytes that stand in a text, their neighbours, what they are with another high
/// bit, and what is often put beside them.
pub const TELLING: &[u8] =
    b"0123456789=\nrowsidctmkp\r \t\0\xff/:<>\x0b-+.,;#qpnhjlxvuezRIDCTMKP\xb0\xb1\xbd\x8a\xf2\x0d\x1a'\"";

/// Numbers of one to five digits, and the ends of each of those ranges; the last
/// ones are in no range of a table, but are values.
const DIGITS: [u32; 16] = [
    1, 2, 9, 10, 11, 99, 100, 101, 999, 1_000, 9_999, 10_000, 65_535, 65_536, 99_998, 99_999,
];

/// The text of a table of so many rows, few of its values longer than two digits:
/// short enough that every change to it can be tried.
pub fn short_text(rng: &mut Rng, rows: usize) -> Vec<u8> {
    let mut words = sound(rng, rows, 99);
    for (row, seven) in words.chunks_exact_mut(ROW_WORDS).enumerate() {
        seven[0] = rng.word(1, 9) + 10 * row as u32;
    }
    text_of(&words)
}

/// Words that a text can name, of any number of rows: most of them a table.
pub fn nameable(rng: &mut Rng) -> Vec<u32> {
    let rows = 1 + rng.index(ROWS_MAX);
    let mut words = match rng.below(8) {
        0 | 1 => table(rng),
        2 | 3 => sound(rng, rows, WORD_MAX),
        4 => sound(rng, rows, 9),
        5 => faulty_table(rng),
        _ => with_faults(rng, rows),
    };
    words.truncate(words.len() / ROW_WORDS * ROW_WORDS);
    for word in &mut words {
        *word = (*word).min(VALUE_MAX);
    }
    words
}

/// A table with one to three words at an end of a range or past it, or with the
/// id of another row.
fn with_faults(rng: &mut Rng, rows: usize) -> Vec<u32> {
    let mut words = sound(rng, rows, WORD_MAX);
    for _ in 0..rng.between(1, 3) {
        let at = rng.index(words.len());
        words[at] = match rng.below(4) {
            0 => words[at % ROW_WORDS],
            1 => rng.choose(&DIGITS).unwrap_or(0),
            2 => rng.word(0, VALUE_MAX),
            _ => rng.choose(&EDGES).unwrap_or(0).min(VALUE_MAX),
        };
    }
    words
}

/// Rows of any values at all, many of them of five digits: of the form, and as
/// long as a text of it can be.
pub fn any_values(rng: &mut Rng, rows: usize) -> Vec<u32> {
    let long = rng.once_in(2);
    let draw = |_| match rng.below(4) {
        _ if long => rng.word(10_000, VALUE_MAX),
        0 => 0,
        1 => rng.choose(&DIGITS).unwrap_or(0),
        _ => rng.word(0, VALUE_MAX),
    };
    (0..rows * ROW_WORDS).map(draw).collect()
}

/// 32 rows of values of five digits: of the form, and refused for its rows.
pub fn widest(rng: &mut Rng) -> Vec<u32> {
    let values = (0..ROWS_MAX * ROW_WORDS).map(|_| rng.word(10_000, VALUE_MAX));
    values.collect()
}

/// The text with the byte at this place changed.
pub fn changed(text: &[u8], at: usize, byte: u8) -> Vec<u8> {
    let mut text = text.to_vec();
    text[at] = byte;
    text
}

/// The text with these bytes put in before this place.
pub fn inserted(text: &[u8], at: usize, bytes: &[u8]) -> Vec<u8> {
    [&text[..at], bytes, &text[at..]].concat()
}

/// The text with so many bytes from this place taken out.
pub fn deleted(text: &[u8], at: usize, bytes: usize) -> Vec<u8> {
    let end = (at + bytes).min(text.len());
    [&text[..at], &text[end..]].concat()
}

/// A text's lines with one of them left out, said twice, put in from elsewhere, changed
/// about with another or overwritten by it, or an empty one put in.
pub fn one_moved<'a>(rng: &mut Rng, lines: &[&'a [u8]], at: usize) -> Vec<&'a [u8]> {
    let other = rng.index(lines.len());
    let mut moved = lines.to_vec();
    match rng.below(6) {
        0 => {
            moved.remove(at);
        }
        1 => moved.insert(at, lines[at]),
        2 => moved.insert(at, lines[other]),
        3 => moved.swap(at, other),
        4 => moved[at] = lines[other],
        _ => moved.insert(at, b"\n"),
    }
    moved
}

/// A text with each byte changed to each of these, each put in at every place, and
/// one to three bytes taken out at every place.
pub fn every_change<'a>(text: &'a [u8], bytes: &'a [u8]) -> impl Iterator<Item = Vec<u8>> + 'a {
    (0..=text.len()).flat_map(move |at| {
        let put = bytes.iter().flat_map(move |&byte| {
            let in_place = (at < text.len()).then(|| changed(text, at, byte));
            in_place.into_iter().chain([inserted(text, at, &[byte])])
        });
        put.chain((1..=3).map(move |count| deleted(text, at, count)))
    })
}

/// Every LF with a CR before it, or only those from one line on.
pub fn with_crs(rng: &mut Rng, text: &[u8]) -> Vec<u8> {
    let from = if rng.once_in(2) {
        0
    } else {
        rng.index(text.len())
    };
    let crs = text.iter().enumerate().flat_map(|(at, &byte)| {
        let cr = (byte == b'\n' && at >= from).then_some(b'\r');
        cr.into_iter().chain([byte])
    });
    crs.collect()
}

/// The value written in a way that it may not be, more or less.
pub fn miswritten(rng: &mut Rng, value: u32) -> Vec<u8> {
    let digit = rng.below(10);
    let written = match rng.below(16) {
        0..=2 => format!("0{value}"),
        3 => format!("00{value}"),
        4..=6 => format!("{value}{digit}"),
        7 => format!("{:06}", value + 100_000),
        8 => format!("{}", (1u64 << 32) + u64::from(value)),
        9 => format!("{}", (1u128 << 64) + u128::from(value)),
        10 => format!("{value}\r"),
        11 => format!(" {value}"),
        12 => format!("{value} "),
        13 => format!("{}{value}", if digit < 5 { '-' } else { '+' }),
        14 => format!("{value:x}h"),
        _ => String::new(),
    };
    written.into_bytes()
}

/// The text of one row in which a line has this for its value: line 0 is the
/// first, and the other values are small and in range.
pub fn one_row_with(line: usize, value: &[u8]) -> Vec<u8> {
    let mut out = Vec::with_capacity(64);
    let keys = ["rows"].into_iter().chain(KEYS);
    for (number, key) in keys.enumerate() {
        out.extend_from_slice(key.as_bytes());
        out.push(b'=');
        out.extend_from_slice(if number == line { value } else { b"1" });
        out.push(b'\n');
    }
    out
}

/// Bytes that follow a text, or a first line: rows, rubbish, nothing.
pub fn rubbish_after(rng: &mut Rng) -> Vec<u8> {
    let length = rng.index(60);
    match rng.below(6) {
        0 => Vec::new(),
        1 => text_of(&sound(rng, 1, 9))[7..].to_vec(),
        2 => vec![rng.choose(TELLING).unwrap_or(0); length],
        3 => (0..length)
            .map(|_| rng.choose(TELLING).unwrap_or(0))
            .collect(),
        _ => (0..length).map(|_| rng.bits() as u8).collect(),
    }
}

/// A room for a text of so many bytes, mostly long enough.
pub fn byte_room(rng: &mut Rng, needed: usize) -> Vec<u8> {
    let length = room_length(rng, needed, 100);
    byte_room_of(rng, length)
}

/// A room of this length, filled beforehand: with rubbish, with bytes of a text,
/// or all alike.
pub fn byte_room_of(rng: &mut Rng, length: usize) -> Vec<u8> {
    let key = rng.bits();
    match rng.below(16) {
        0 => vec![0; length],
        1 => vec![u8::MAX; length],
        2 => vec![b'\n'; length],
        3 => vec![b'0'; length],
        _ => (0..length as u64)
            .map(|at| ((key ^ at).wrapping_mul(0x9E37_79B9_7F4A_7C15) >> 56) as u8)
            .collect(),
    }
}
