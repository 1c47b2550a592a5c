//! The rule for the place of a fault, by hand and against texts written out
//! whole: what begins one of those is a beginning, and what begins none is not.

use peer::brute::{is_beginning, is_text, place, place_by_halves, read, read_into, words};
use peer::gen::{damaged_text, good_text, long_texts, longest_table, special_texts};
use peer::rng::Rng;
use peer::text::text_of;

/// Beginnings of texts, the texts themselves among them.
const BEGIN: [&[u8]; 25] = [
    b"",
    b"r",
    b"rows",
    b"rows=",
    b"rows=0",
    b"rows=0\n",
    b"rows=9",
    b"rows=10000",
    b"rows=99999",
    b"rows=99999\n",
    b"rows=99999\nid=0\nc=0\nt=0\nd=0\nm=0\nk=0\np=0\nid=",
    b"rows=33\ni",
    b"rows=1\n",
    b"rows=1\nid=0",
    b"rows=1\nid=0\nc=99999",
    b"rows=1\nid=0\nc=99999\nt=",
    b"rows=1\nid=0\nc=0\nt=0\nd=0\nm=0\nk=0\np=0",
    b"rows=1\nid=0\nc=0\nt=0\nd=0\nm=0\nk=0\np=0\n",
    b"rows=2\nid=0\nc=0\nt=0\nd=0\nm=0\nk=0\np=0\n",
    b"rows=2\nid=0\nc=0\nt=0\nd=0\nm=0\nk=0\np=0\ni",
    b"rows=1\nid=0\nc=0\nt=0\nd=0\nm=0\nk=0\n",
    b"rows=1\nid=0\nc=0\nt=0\nd=0\nm=0\nk=0\np",
    b"rows=1\nid=0\nc=0\nt=0\nd=0\nm=0\nk=0\np=65536",
    b"rows=2\nid=7\nc=0\nt=0\nd=0\nm=0\nk=0\np=0\nid=7\nc",
    b"rows=2\nid=7\nc=0\nt=0\nd=0\nm=0\nk=0\np=0\nid=7\nc=0\nt=0\nd=0\nm=0\nk=0\np=0\n",
];

/// Bytes that begin no text, and how many of them still begin one.
const BEGIN_NONE: [(&[u8], usize); 52] = [
    (b"\n", 0),
    (b"\0", 0),
    (b"\xff", 0),
    (b" rows=1\n", 0),
    (b"Rows=1\n", 0),
    (b"id=1\n", 0),
    (b"rowz", 3),
    (b"rows \n", 4),
    (b"rows:1\n", 4),
    (b"rows\n", 4),
    (b"rows==1\n", 5),
    (b"rows=\n", 5),
    (b"rows= 1\n", 5),
    (b"rows=-1\n", 5),
    (b"rows=+1\n", 5),
    (b"rows=x\n", 5),
    (b"rows=00", 6),
    (b"rows=01\n", 6),
    (b"rows=1\r\n", 6),
    (b"rows=1 \n", 6),
    (b"rows=1\0\n", 6),
    (b"rows=1=\n", 6),
    (b"rows=0\n\n", 7),
    (b"rows=0\nid=1\n", 7),
    (b"rows=123456", 10),
    (b"rows=100000\n", 10),
    (b"rows=4294967297\n", 10),
    (b"rows=1\n\n", 7),
    (b"rows=1\nc=1\n", 7),
    (b"rows=1\nId=1\n", 7),
    (b"rows=1\nid\n", 9),
    (b"rows=1\nid=\n", 10),
    (b"rows=1\nid=1\n\n", 12),
    (b"rows=1\nid=1\nid=1\n", 12),
    (b"rows=1\nid=00\n", 11),
    (b"rows=1\nid=65535\nc=655350\n", 23),
    (b"rows=99999\nid=1\nc=1\nt=1\nd=1\nk=1\n", 28),
    (b"rows=1\nid=0\nc=0\nt=0\nd=0\nm=0\nk=0\np=0\n\n", 36),
    (b"rows=1\nid=0\nc=0\nt=0\nd=0\nm=0\nk=0\np=0\n\0", 36),
    (b"rows=1\nid=0\nc=0\nt=0\nd=0\nm=0\nk=0\np=0\nid=1\n", 36),
    (b"rows=1\nid=0\nc=0\nt=0\nd=0\nm=0\nk=0\np=0\r\n", 35),
    (b"rows=2\nid=0\nc=0\nt=0\nd=0\nm=0\nk=0\np=0\n\n", 36),
    (b"rows=2\nid=0\nc=0\nt=0\nd=0\nm=0\nk=0\np=0\nrows=1\n", 36),
    (b"rows=2\nid=0\nc=0\nt=0\nd=0\nm=0\nk=0\np=0\nc=0\n", 36),
    (b"rows=2\nid=0\nc=0\nt=0\nd=0\nm=0\nk=0\nid=1\n", 32),
    (b"rows=1\nid=0\nc=0\nt=0\nd=0\nm=0\nk=0\n\n", 32),
    (b"rows=1\nid=0\nc=0\nt=0\nd=0\nm=0\nk=0\nP=0\n", 32),
    (b"rows=1\nid=0\nc=0\nt=0\nd=0\nm=0\np=0\nk=0\n", 28),
    (b"rows=1\np=0\nid=0\nc=0\nt=0\nd=0\nm=0\nk=0\n", 7),
    (b"rows=1\nid=0\nc=0\nt=0\nd=0\nm=0\nk=0\np=\n", 34),
    (b"rows=1\nid=0\nc=0\nt=0\nd=0\nm=0\nk=0\np=01\n", 35),
    (b"rows=2\nid=0\nc=0\nt=0\nd=0\nm=0\nk=0\np=0\np=0\n", 36),
];

/// Whole texts of the form, in range or not.
const TEXTS: [&[u8]; 4] = [
    b"rows=0\n",
    b"rows=1\nid=0\nc=0\nt=0\nd=0\nm=0\nk=0\np=0\n",
    b"rows=1\nid=99999\nc=99999\nt=99999\nd=99999\nm=99999\nk=99999\np=99999\n",
    b"rows=2\nid=7\nc=0\nt=0\nd=0\nm=0\nk=0\np=0\nid=7\nc=0\nt=0\nd=0\nm=0\nk=0\np=0\n",
];

fn shown(text: &[u8]) -> String {
    text.escape_ascii().to_string()
}

#[test]
fn beginnings_by_hand() {
    for text in BEGIN {
        for length in 0..=text.len() {
            assert!(is_beginning(&text[..length]), "{}", shown(&text[..length]));
        }
    }
    for (text, begins) in BEGIN_NONE {
        for length in 0..=text.len() {
            let expected = length <= begins;
            assert_eq!(
                is_beginning(&text[..length]),
                expected,
                "{} of {}",
                length,
                shown(text)
            );
        }
    }
}

#[test]
fn texts_by_hand() {
    for text in TEXTS {
        assert!(is_text(text), "{}", shown(text));
        assert_eq!((place(text), place_by_halves(text)), (None, None));
        for length in 0..text.len() {
            assert!(!is_text(&text[..length]), "{}", shown(&text[..length]));
        }
    }
    for (text, _) in BEGIN_NONE {
        assert!(!is_text(text), "{}", shown(text));
    }
}

/// "the index of the first byte that makes the text so far the beginning of no
/// text of this form, or the length if it ended early"
#[test]
fn places_by_hand() {
    for (text, at) in BEGIN_NONE {
        assert_eq!(place(text), Some(at), "{}", shown(text));
        assert_eq!(place_by_halves(text), Some(at), "{}", shown(text));
        for more in [&b"\n"[..], b"rubbish", b"\0\xff", text] {
            let longer = [text, more].concat();
            assert_eq!(place(&longer), Some(at), "{}", shown(&longer));
            assert_eq!(place_by_halves(&longer), Some(at), "{}", shown(&longer));
        }
    }
    for text in BEGIN.iter().filter(|text| !TEXTS.contains(text)) {
        assert_eq!(place(text), Some(text.len()), "{}", shown(text));
        assert_eq!(place_by_halves(text), Some(text.len()), "{}", shown(text));
    }
}

/// The values of whole texts, and a room that they fill, just, and not.
#[test]
fn words_by_hand() {
    assert_eq!(words(TEXTS[0]), []);
    assert_eq!(words(TEXTS[1]), [0; 7]);
    assert_eq!(words(TEXTS[2]), [99_999; 7]);
    let text = b"rows=1\nid=9\nc=1\nt=20\nd=10\nm=3\nk=64\np=1\n";
    assert_eq!(words(text), [9, 1, 20, 10, 3, 64, 1]);
    for (length, refusal, value) in [(0, 13, 0), (6, 13, 0), (7, 0, 1), (8, 0, 1)] {
        let mut room = vec![77; length];
        let answer = read_into(text, &mut room);
        assert_eq!((answer.refusal, answer.value), (refusal, value));
        let filled = 7 * value as usize;
        assert_eq!(room[..filled], words(text)[..filled]);
        assert!(room[filled..].iter().all(|&word| word == 77));
    }
}

/// Whether the bytes begin one of the texts, which are in order: the first that
/// does not come before the bytes begins with them if any does.
fn begins_one(texts: &[Vec<u8>], bytes: &[u8]) -> bool {
    let first = texts.partition_point(|text| text.as_slice() < bytes);
    texts.get(first).is_some_and(|text| text.starts_with(bytes))
}

/// All texts that share every line but one with this text: the line has each of
/// its 100,000 values in turn.
fn with_every_value(lines: &[String], at: usize) -> Vec<Vec<u8>> {
    let (key, _) = lines[at].split_once('=').unwrap();
    let (before, after) = (lines[..at].concat(), lines[at + 1..].concat());
    let values = 0..=99_999;
    let mut texts: Vec<Vec<u8>> = values
        .map(|value| format!("{before}{key}={value}\n{after}").into_bytes())
        .collect();
    texts.sort();
    texts
}

/// In every line of a text, each of its beginnings with every byte after it:
/// it is a beginning when one of the texts written out begins so. Of the first
/// line only the line is written out, as any value may stand there; lines after
/// it are fixed by it.
#[test]
fn every_byte_after_every_beginning() {
    let text = "rows=2\nid=10\nc=9\nt=65535\nd=100\nm=0\nk=1\np=0\nid=2\nc=0\nt=1\nd=1\nm=1234\nk=64\np=1\n";
    let lines: Vec<String> = text.split_inclusive('\n').map(String::from).collect();
    for (at, line) in lines.iter().enumerate() {
        let shared = if at == 0 { &lines[..1] } else { &lines[..] };
        let texts = with_every_value(shared, at);
        let before = lines[..at].concat().into_bytes();
        let mut begun = vec![before.clone()];
        begun.extend((1..line.len()).map(|end| [&before, &line.as_bytes()[..end]].concat()));
        // Every beginning of other values, short and long.
        let key = &line[..=line.find('=').unwrap()];
        for value in ["0", "1", "12", "909", "7000", "99999"] {
            begun.push([&before, key.as_bytes(), value.as_bytes()].concat());
        }
        for bytes in begun {
            assert!(is_beginning(&bytes), "{}", shown(&bytes));
            for byte in 0..=255 {
                let longer = [&bytes[..], &[byte]].concat();
                let expected = begins_one(&texts, &longer);
                assert_eq!(is_beginning(&longer), expected, "{}", shown(&longer));
            }
        }
    }
    for byte in 0..=255 {
        let longer = [text.as_bytes(), &[byte]].concat();
        assert!(!is_beginning(&longer));
    }
}

/// Of all bytes some are a beginning up to a length and none past it, so that
/// halves find what every length finds.
#[test]
fn halves_and_every_length() {
    let mut rng = Rng::new(24);
    let mut texts = special_texts();
    texts.push(text_of(&longest_table()));
    texts.extend((0..20_000).map(|_| damaged_text(&mut rng)));
    texts.extend((0..100).map(|_| good_text(&mut rng)));
    let long = long_texts().into_iter();
    texts.extend(long.map(|text| text[..text.len().min(3_000)].to_vec()));
    for text in texts {
        let expected = place(&text);
        assert_eq!(place_by_halves(&text), expected, "{}", shown(&text));
        let begins = (0..=text.len()).filter(|&end| is_beginning(&text[..end]));
        let last = expected.unwrap_or(text.len());
        assert!(begins.eq(0..=last), "{}", shown(&text));
        let mut room = [0; 224];
        assert_eq!(read_into(&text, &mut room), read(&text), "{}", shown(&text));
    }
}
