//! Which refusal comes first, and rooms.

use super::{carried, into, ENOUGH};
use peer::convert::Way;
use peer::text::text_of;

/// So many sound rows with the ids 1, 2, and on, every one even.
fn rows_of(rows: usize) -> Vec<u32> {
    let row = |id| [id, 1, 64, 64, 1, 2, 0];
    (1..=rows as u32).flat_map(row).collect()
}

/// The words with some of them other ones.
fn with(mut words: Vec<u32>, changes: &[(usize, usize, u32)]) -> Vec<u32> {
    for &(row, word, value) in changes {
        words[7 * row + word] = value;
    }
    words
}

/// What comes of the new text of these rows, changed so.
fn refused(rows: usize, changes: &[(usize, usize, u32)]) -> (u64, u64) {
    let text = text_of(&with(rows_of(rows), changes));
    carried(Way::ToOld, &text).unwrap_err()
}

/// "17, a row with p 1, with its row": each row by itself, and the first of several.
#[test]
fn every_row_with_p_1() {
    for rows in [1, 2, 5, 32] {
        for row in 0..rows {
            assert_eq!(refused(rows, &[(row, 6, 1)]), (17, row as u64));
            let all: Vec<_> = (row..rows).map(|row| (row, 6, 1)).collect();
            assert_eq!(refused(rows, &all), (17, row as u64));
        }
    }
    assert_eq!(refused(32, &[(31, 6, 1), (3, 6, 1)]), (17, 3));
}

/// "those of text and table for the form read, then 17": whichever row they are in.
#[test]
fn the_table_before_17() {
    let faults = [
        (4, 0, 0),
        (5, 2, 0),
        (6, 3, 65),
        (7, 1, 0),
        (8, 5, 65),
        (9, 4, 3),
        (16, 6, 2),
    ];
    for (number, word, value) in faults {
        for row in 0..4 {
            for red in (0..4).filter(|red| *red != row) {
                let changes = [(red, 6, 1), (row, word, value)];
                assert_eq!(refused(4, &changes), (number, row as u64));
            }
            if word != 6 {
                let changes = [(row, 6, 1), (row, word, value)];
                assert_eq!(refused(4, &changes), (number, row as u64));
            }
        }
    }
    // An id that stands in an earlier row, in a row with p 1 and beside one.
    for red in 0..4 {
        assert_eq!(refused(4, &[(red, 6, 1), (2, 0, 1)]), (10, 2));
    }
}

/// 12 is given before any fault of the rows, and 2 and 3 before 12 in a later line.
#[test]
fn the_text_before_the_table() {
    let words = with(rows_of(3), &[(0, 0, 0), (1, 6, 1), (2, 6, 2)]);
    let mut text = text_of(&words);
    assert_eq!(carried(Way::ToOld, &text), Err((4, 0)));
    let length = text.len() as u64;
    text.push(b'\n');
    assert_eq!(carried(Way::ToOld, &text), Err((12, length)));
    text.truncate(text.len() - 2);
    assert_eq!(carried(Way::ToOld, &text), Err((12, length - 1)));
    for (said, refusal) in [(b'0', 2), (b'4', 12), (b'9', 12), (b'2', 12)] {
        text[5] = said;
        assert_eq!(carried(Way::ToOld, &text).unwrap_err().0, refusal);
    }
    let past = [b"rows=33\n", &text[7..]].concat();
    assert_eq!(carried(Way::ToOld, &past), Err((3, 0)));
}

/// "then 13": after every other, and only where the text does not fit.
#[test]
fn the_room_last() {
    let words = rows_of(3);
    let new = text_of(&words);
    let old = carried(Way::ToOld, &new).unwrap();
    assert_eq!(old.len() + 3 * "p=0\n".len(), new.len());
    for (way, text, due) in [(Way::ToNew, &old, &new), (Way::ToOld, &new, &old)] {
        for length in 0..due.len() {
            assert_eq!(into(way, text, length).0.refusal, 13);
        }
        for length in [due.len(), due.len() + 1, ENOUGH] {
            let (answer, text) = into(way, text, length);
            assert_eq!((answer.value, &text), (due.len() as u64, due));
        }
    }
    for changes in [[(1, 6, 1), (1, 6, 1)], [(2, 6, 1), (1, 6, 1)]] {
        let text = text_of(&with(words.clone(), &changes));
        let answer = into(Way::ToOld, &text, 0).0;
        assert_eq!((answer.refusal, answer.value), (17, 1));
    }
    let faulty = text_of(&with(words, &[(2, 6, 2)]));
    assert_eq!(into(Way::ToOld, &faulty, 0).0.refusal, 16);
    assert_eq!(into(Way::ToOld, &faulty[1..], 0).0.refusal, 12);
    assert_eq!(into(Way::ToNew, &new, 0).0.refusal, 12);
}
