//! Lines and what may stand in them, written out: all 100,000 ends of a line, a value
//! with its LF, and every beginning of every one of them in a set.

use std::collections::{HashMap, HashSet};
use std::hash::{BuildHasherDefault, Hasher};
use std::sync::OnceLock;

/// What may stand after the `=` of a line.
struct LineEnds {
    /// A value and its LF, and the number that was written out.
    whole: HashMap<u64, u32, BuildHasherDefault<Scatter>>,
    /// Every beginning of one, the empty and the whole included.
    begun: HashSet<u64, BuildHasherDefault<Scatter>>,
}

/// Sets of packed bytes are asked very often; this is enough to scatter them.
#[derive(Default)]
struct Scatter(u64);

impl Hasher for Scatter {
    fn write(&mut self, bytes: &[u8]) {
        for &byte in bytes {
            self.write_u64(u64::from(byte));
        }
    }

    fn write_u64(&mut self, number: u64) {
        let mixed = (self.0 ^ number).wrapping_mul(0x9E37_79B9_7F4A_7C15);
        self.0 = mixed ^ mixed >> 32;
    }

    fn finish(&self) -> u64 {
        self.0
    }
}

/// Up to seven bytes and their number as one number, no two alike; none for
/// more, as no end of a line is so long.
fn packed(bytes: &[u8]) -> Option<u64> {
    let mut eight = [0; 8];
    eight[..7].get_mut(..bytes.len())?.copy_from_slice(bytes);
    eight[7] = bytes.len() as u8;
    Some(u64::from_le_bytes(eight))
}

/// "A value is 0, or a non-zero digit followed by at most four digits": the
/// numbers 0 to 99,999, each written in the one way there is.
fn line_ends() -> &'static LineEnds {
    static ENDS: OnceLock<LineEnds> = OnceLock::new();
    ENDS.get_or_init(|| {
        let mut ends = LineEnds {
            whole: HashMap::default(),
            begun: HashSet::default(),
        };
        for value in 0..=99_999 {
            let end = format!("{value}\n").into_bytes();
            let begun = (0..=end.len()).filter_map(|length| packed(&end[..length]));
            ends.begun.extend(begun);
            ends.whole.extend(packed(&end).map(|end| (end, value)));
        }
        ends
    })
}

/// The value of a whole line, its LF included.
pub fn whole_line(opening: &[u8], line: &[u8]) -> Option<u32> {
    let end = packed(line.strip_prefix(opening)?)?;
    line_ends().whole.get(&end).copied()
}

/// Whether the bytes are the beginning of some line with this opening.
pub fn begun_line(opening: &[u8], line: &[u8]) -> bool {
    let end = line.strip_prefix(opening).and_then(packed);
    opening.starts_with(line) || end.is_some_and(|end| line_ends().begun.contains(&end))
}

/// The lines, each with its LF; the last one may be without.
pub fn lines(text: &[u8]) -> impl Iterator<Item = &[u8]> {
    text.split_inclusive(|&byte| byte == b'\n')
}
