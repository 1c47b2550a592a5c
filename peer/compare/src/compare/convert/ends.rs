//! Texts that end too early or too late, first lines of every kind, and texts far
//! longer than any that is accepted.

use peer::convert::Way;
use peer::gen::{even, form_read, long_texts, longest_table};
use peer::table::ROWS_MAX;

use super::inputs::{even_rows, good};
use super::{same_back, same_into, same_text};
use crate::course::{Compared, Course};
use crate::draw::{byte_room_of, rubbish_after, widest, TELLING};

/// A room for every text that is carried.
const ROOM: usize = 1_512;

/// Rounds of texts far longer than that.
const FAR: u32 = 150;

/// Every beginning of texts of several numbers of rows, alone and with the rest of the
/// text right after it in memory; then bytes after the text.
pub fn ends(course: &mut Course, way: Way) -> Compared {
    let longest = even(&longest_table());
    let mut tables = vec![longest, even(&widest(&mut course.rng))];
    let drawn = [1, 2, 3, 7, 16, ROWS_MAX].map(|rows| even_rows(&mut course.rng, rows));
    tables.extend(drawn);
    for words in tables {
        let text = form_read(way, &words);
        for length in 0..=text.len() {
            let room = byte_room_of(&mut course.rng, ROOM);
            let (cut, rest) = text.split_at(length);
            same_into(course, way, (cut, &[]), &room)?;
            if let Some(there) = same_into(course, way, (cut, rest), &room)? {
                same_back(course, way, &text, &there)?;
            }
        }
        late(course, way, &text)?;
    }
    first_lines(course, way)
}

/// Every byte after a text, and several; and the text after them.
fn late(course: &mut Course, way: Way, text: &[u8]) -> Compared {
    for byte in 0..=255 {
        same_text(course, way, &[text, &[byte]].concat())?;
    }
    for &byte in TELLING {
        let further = rubbish_after(&mut course.rng);
        same_text(course, way, &[text, &[byte], &further].concat())?;
    }
    let row = b"id=1\nc=1\nt=2\nd=2\nm=1\nk=1\n";
    for further in [text, row, b"p=0\n", b"p=1\n", b"\n\n", b"\r\n", b"\0"] {
        same_text(course, way, &[text, further].concat())?;
        same_text(course, way, &[further, text].concat())?;
    }
    Ok(())
}

/// Numbers of rows up to 40 and far past it, each before nothing, before rows of one form
/// and of the other, and before rubbish.
fn first_lines(course: &mut Course, way: Way) -> Compared {
    let far = [99, 256, 257, 288, 999, 65_536, 65_537, 99_998, 99_999];
    let rows = ROWS_MAX + 8;
    for number in (0..=40).chain(far) {
        let words = even_rows(&mut course.rng, rows);
        let rubbish = rubbish_after(&mut course.rng);
        let (own, other) = (form_read(way, &words), form_read(way.back(), &words));
        // The first line of both is `rows=40` with its LF.
        let rests = [
            &b""[..],
            b"\n",
            b"\0",
            b"id=0",
            &own[8..],
            &other[8..],
            &rubbish,
        ];
        for rest in rests {
            for end in ["\n", "", "\r\n", " \n", "0\n", "=\n"] {
                let line = format!("rows={number}{end}").into_bytes();
                same_text(course, way, &[&line, rest].concat())?;
            }
        }
    }
    Ok(())
}

/// Tails and middles of thousands of bytes, and more rows than the first line says.
pub fn far(course: &mut Course, way: Way) -> Compared {
    for round in 0..FAR {
        let rng = &mut course.rng;
        let rows = 33 + rng.index(100);
        let text = good(rng, way, rows);
        let said = rng.choose(&[0, 1, 31, 32, 33, 99_999]).unwrap_or(0);
        let first = text.iter().position(|&byte| byte == b'\n').unwrap_or(0);
        let renamed = [format!("rows={said}").as_bytes(), &text[first..]].concat();
        same_text(course, way, &renamed)?;
        let rng = &mut course.rng;
        let kept = 1 + rng.index(ROWS_MAX);
        let whole = good(rng, way, kept);
        let long = (round as usize % 20 + 1) * 500;
        let byte = rng.choose(TELLING).unwrap_or(0);
        let at = rng.index(whole.len() + 1);
        let within = [&whole[..at], &vec![byte; long], &whole[at..]].concat();
        same_text(course, way, &within)?;
        let rubbish = (0..long).map(|_| course.rng.bits() as u8);
        let after: Vec<u8> = whole.iter().copied().chain(rubbish).collect();
        same_text(course, way, &after)?;
    }
    for text in long_texts() {
        same_text(course, way, &text)?;
    }
    Ok(())
}
