//! Texts with what comes of them, by hand.

use super::{carried, WAYS};
use peer::convert::{program, Output, Way};

/// Texts that come out the same for both forms, and the refusal and the place they have.
const EITHER: [(&[u8], u64, u64); 14] = [
    (b"", 12, 0),
    (b"\n", 12, 0),
    (b"rows", 12, 4),
    (b"ticks=1\nrows=1\n", 12, 0),
    (b"rows=0", 12, 6),
    (b"rows=0\n", 2, 0),
    (b"rows=0\nrubbish", 2, 0),
    (b"rows=33\n", 3, 0),
    (b"rows=33", 12, 7),
    (b"rows=99999\n\0", 3, 0),
    (b"rows=100000\n", 12, 10),
    (b"rows=1\r\n", 12, 6),
    (b"rows=1\n", 12, 7),
    (b"rows=1\nid=1\nc=1\nt=1\nd=1\nm=1\nk=01\n", 12, 31),
];

/// Old texts that are refused: the text of a row ends with its line k.
const OLD: [(&[u8], u64, u64); 13] = [
    (b"rows=1\nid=1\nc=1\nt=1\nd=1\nm=1\nk=1", 12, 31),
    (b"rows=1\nid=1\nc=1\nt=1\nd=1\nm=1\nk=1\np=0\n", 12, 32),
    (b"rows=1\nid=1\nc=1\nt=1\nd=1\nm=1\nk=1\n\n", 12, 32),
    (
        b"rows=2\nid=1\nc=1\nt=1\nd=1\nm=1\nk=1\np=0\nid=2\n",
        12,
        32,
    ),
    (b"rows=2\nid=1\nc=1\nt=1\nd=1\nm=1\nk=1\n", 12, 32),
    (b"rows=1\nid=0\nc=1\nt=1\nd=1\nm=1\nk=1\n", 4, 0),
    (b"rows=1\nid=65536\nc=1\nt=1\nd=1\nm=1\nk=1\n", 4, 0),
    (b"rows=1\nid=1\nc=1\nt=0\nd=1\nm=1\nk=1\n", 5, 0),
    (b"rows=1\nid=1\nc=1\nt=1\nd=2\nm=1\nk=1\n", 6, 0),
    (b"rows=1\nid=1\nc=0\nt=1\nd=1\nm=1\nk=1\n", 7, 0),
    (b"rows=1\nid=1\nc=1\nt=1\nd=1\nm=1\nk=65\n", 8, 0),
    (b"rows=1\nid=1\nc=1\nt=1\nd=1\nm=2\nk=1\n", 9, 0),
    (
        b"rows=2\nid=1\nc=1\nt=1\nd=1\nm=1\nk=1\nid=1\nc=1\nt=1\nd=1\nm=1\nk=1\n",
        10,
        1,
    ),
];

/// New texts that are refused.
const NEW: [(&[u8], u64, u64); 15] = [
    (b"rows=1\nid=1\nc=1\nt=1\nd=1\nm=1\nk=1\n", 12, 32),
    (b"rows=1\nid=1\nc=1\nt=1\nd=1\nm=1\nk=1\np=0", 12, 35),
    (b"rows=1\nid=1\nc=1\nt=1\nd=1\nm=1\nk=1\np=00\n", 12, 35),
    (b"rows=1\nid=1\nc=1\nt=1\nd=1\nm=1\nk=1\np=0\n\n", 12, 36),
    (b"rows=2\nid=1\nc=1\nt=1\nd=1\nm=1\nk=1\nid=2\n", 12, 32),
    (b"rows=1\nid=0\nc=1\nt=1\nd=1\nm=1\nk=1\np=0\n", 4, 0),
    (b"rows=1\nid=1\nc=1\nt=65536\nd=1\nm=1\nk=1\np=0\n", 5, 0),
    (b"rows=1\nid=1\nc=1\nt=1\nd=0\nm=1\nk=1\np=0\n", 6, 0),
    (b"rows=1\nid=1\nc=65536\nt=1\nd=1\nm=1\nk=1\np=0\n", 7, 0),
    (b"rows=1\nid=1\nc=1\nt=1\nd=1\nm=1\nk=0\np=0\n", 8, 0),
    (b"rows=1\nid=1\nc=1\nt=1\nd=1\nm=0\nk=1\np=0\n", 9, 0),
    (b"rows=1\nid=1\nc=1\nt=1\nd=1\nm=1\nk=1\np=2\n", 16, 0),
    (b"rows=1\nid=1\nc=1\nt=1\nd=1\nm=1\nk=1\np=99999\n", 16, 0),
    (
        b"rows=2\nid=1\nc=1\nt=1\nd=1\nm=1\nk=1\np=0\nid=1\nc=1\nt=1\nd=1\nm=1\nk=1\np=0\n",
        10,
        1,
    ),
    (b"rows=1\nid=1\nc=1\nt=1\nd=1\nm=1\nk=1\np=1\n", 17, 0),
];

#[test]
fn refusals_by_hand() {
    let refused = |way, cases: &[(&[u8], u64, u64)]| {
        for (text, refusal, value) in cases {
            let shown = String::from_utf8_lossy(text);
            assert_eq!(carried(way, text), Err((*refusal, *value)), "{shown:?}");
        }
    };
    WAYS.iter().for_each(|&way| refused(way, &EITHER));
    refused(Way::ToNew, &OLD);
    refused(Way::ToOld, &NEW);
}

const OLD_TEXT: &[u8] = b"rows=2\nid=11\nc=2\nt=4\nd=4\nm=1\nk=2\nid=12\nc=4\nt=6\nd=6\nm=2\nk=3\n";
const NEW_TEXT: &[u8] =
    b"rows=2\nid=11\nc=2\nt=4\nd=4\nm=1\nk=2\np=0\nid=12\nc=4\nt=6\nd=6\nm=2\nk=3\np=0\n";

/// Document 01's own table, there and back.
#[test]
fn the_documents_table() {
    assert_eq!(carried(Way::ToNew, OLD_TEXT), Ok(NEW_TEXT.to_vec()));
    assert_eq!(carried(Way::ToOld, NEW_TEXT), Ok(OLD_TEXT.to_vec()));
}

/// Standard output and standard error: one of the two stays empty.
#[test]
fn the_programs() {
    let refused = |text: &str| Output {
        text: Vec::new(),
        refused: text.as_bytes().to_vec(),
    };
    let carried = |text: &[u8]| Output {
        text: text.to_vec(),
        refused: Vec::new(),
    };
    let red = [&NEW_TEXT[..NEW_TEXT.len() - 2], b"1\n"].concat();
    assert_eq!(program(Way::ToNew, OLD_TEXT), carried(NEW_TEXT));
    assert_eq!(program(Way::ToOld, NEW_TEXT), carried(OLD_TEXT));
    for (way, input, text) in [
        (Way::ToNew, &b""[..], "refused=12\nat=0\n"),
        (Way::ToNew, NEW_TEXT, "refused=12\nat=33\n"),
        (Way::ToNew, b"rows=0\n", "refused=2\n"),
        (Way::ToNew, OLD[5].0, "refused=4\nat=0\n"),
        (Way::ToOld, OLD_TEXT, "refused=12\nat=33\n"),
        (Way::ToOld, b"rows=33\n", "refused=3\n"),
        (Way::ToOld, NEW[11].0, "refused=16\nat=0\n"),
        (Way::ToOld, &red, "refused=17\nat=1\n"),
    ] {
        assert_eq!(program(way, input), refused(text));
    }
}
