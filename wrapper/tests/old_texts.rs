//! Request 4/14 of document 02: old task texts, six lines a row, carried over and back; the refusals on both ways in their order,
//! and what happens to the room.

use std::fs;
use std::path::Path;

use galleypoppy::{read, to_new, to_old, write, Refusal};
use galleypoppy::{OLD_TEXT_BYTES, ROWS_MAX, TABLE_WORDS, TEXT_BYTES};

/// One of the two ways.
type Carry = for<'a> fn(&[u8], &'a mut [u8]) -> Result<&'a [u8], Refusal>;

const KEYS: [&str; 7] = ["id", "c", "t", "d", "m", "k", "p"];

/// The text of rows of seven words, of each the first `lines` lines: 6 for an old text, 7 for a new one.
fn text(rows: &[[u32; 7]], lines: usize) -> Vec<u8> {
    let mut text = format!("rows={}\n", rows.len());
    for row in rows {
        for (key, value) in KEYS.iter().zip(row).take(lines) {
            text += &format!("{key}={value}\n");
        }
    }
    text.into_bytes()
}

/// Even rows; their C and T have every number of digits that a value can have.
fn even_rows(count: u32) -> Vec<[u32; 7]> {
    let wide = [1, 12, 123, 1234, 65_535];
    let at = |place: u32| wide[place as usize % wide.len()];
    (0..count)
        .map(|i| [i * 2047 + 1, at(i + 1), at(i + 3), 1, 1, 1 + 2 * i, 0])
        .collect()
}

/// Two rows, the second with one word put to another value.
fn spoilt(place: usize, value: u32) -> [[u32; 7]; 2] {
    let mut rows = [[5, 1, 10, 10, 1, 2, 0], [6, 1, 10, 10, 1, 2, 0]];
    rows[1][place] = value;
    rows
}

/// The refusal in a room of no bytes, so that one that isn't 13 is seen to come before it.
fn refused(carry: Carry, text: &[u8]) -> Refusal {
    carry(text, &mut []).expect_err("a refusal")
}

#[test]
fn over_and_back() -> Result<(), Refusal> {
    for count in 1..=ROWS_MAX as u32 {
        let rows = even_rows(count);
        let (old, new) = (text(&rows, 6), text(&rows, 7));
        assert_eq!(to_new(&old, &mut [0; TEXT_BYTES])?, new);
        assert_eq!(to_old(&new, &mut [0; OLD_TEXT_BYTES])?, old);
        assert_eq!(read(&new, &mut [0; TABLE_WORDS])?, rows.concat());
    }
    Ok(())
}

/// The samples' texts: back and over again where every p is 0, and no old text where one is 1.
#[test]
fn the_samples() {
    let folder = Path::new(env!("CARGO_MANIFEST_DIR")).join("../samples");
    let text_of = |name: &str| {
        let input = fs::read_to_string(folder.join(name)).expect("a sample");
        let (_, text) = input.split_once('\n').expect("a line of ticks");
        text.to_string()
    };
    for name in ["music_stand.txt", "thirty_two_rows.txt"] {
        let new = text_of(name);
        let mut old_room = [0; OLD_TEXT_BYTES];
        let old = to_old(new.as_bytes(), &mut old_room).expect("an old text");
        assert_eq!(old, new.replace("p=0\n", "").as_bytes());
        assert_eq!(to_new(old, &mut [0; TEXT_BYTES]), Ok(new.as_bytes()));
    }
    let red = text_of("radio_together.txt");
    assert_eq!(refused(to_old, red.as_bytes()), Refusal::NotOld(1));
}

/// Every value as long as it can be: each room is filled to its last byte, and one byte less is refused.
#[test]
fn the_longest_texts() -> Result<(), Refusal> {
    let ids = 65_504..65_504 + ROWS_MAX as u32;
    let rows: Vec<[u32; 7]> = ids
        .map(|id| [id, 65_535, 65_535, 65_535, 64, 64, 0])
        .collect();
    let (old, new) = (text(&rows, 6), text(&rows, 7));
    assert_eq!((old.len(), OLD_TEXT_BYTES), (1384, 1384));
    assert_eq!((new.len(), TEXT_BYTES), (1512, 1512));
    assert_eq!(to_new(&old, &mut [0; TEXT_BYTES])?, new);
    assert_eq!(to_old(&new, &mut [0; OLD_TEXT_BYTES])?, old);
    assert_eq!(to_new(&old, &mut [0; TEXT_BYTES - 1]), Err(Refusal::Room));
    assert_eq!(
        to_old(&new, &mut [0; OLD_TEXT_BYTES - 1]),
        Err(Refusal::Room)
    );
    Ok(())
}

/// One byte short: refused, and every byte is kept. Longer: the rest is kept.
#[test]
fn the_room() {
    let rows = even_rows(3);
    let (old, new) = (text(&rows, 6), text(&rows, 7));
    let ways: [(Carry, &[u8], &[u8]); 2] = [(to_new, &old, &new), (to_old, &new, &old)];
    for (carry, from, to) in ways {
        let mut room = vec![77; to.len() + 5];
        let short = carry(from, &mut room[..to.len() - 1]).map(<[u8]>::to_vec);
        assert_eq!(short, Err(Refusal::Room));
        assert!(room.iter().all(|&byte| byte == 77));
        assert_eq!(carry(from, &mut room[..to.len()]), Ok(to));
        assert_eq!(room[to.len()..], [77; 5]);
        room.fill(78);
        assert_eq!(carry(from, &mut room), Ok(to));
        assert_eq!(room[to.len()..], [78; 5]);
    }
}

/// No refusal alters a byte, whatever it is for.
#[test]
fn a_refusal_leaves_the_room() {
    let mut room = [77; TEXT_BYTES];
    let repeated = spoilt(0, 5);
    let texts = [
        (to_new as Carry, text(&repeated, 6), Refusal::Repeated(1)),
        (to_new, text(&repeated, 7), Refusal::Text(34)),
        (to_old, text(&repeated, 7), Refusal::Repeated(1)),
        (to_old, text(&repeated, 6), Refusal::Text(34)),
        (to_old, text(&spoilt(6, 1), 7), Refusal::NotOld(1)),
    ];
    for (carry, text, refusal) in texts {
        assert_eq!(carry(&text, &mut room), Err(refusal));
        assert_eq!(room, [77; TEXT_BYTES]);
    }
}

/// "the first line (12), its value (2, 3), the remaining lines (12)", the same on both ways.
#[test]
fn first_line_then_its_value_then_the_other_lines() {
    for carry in [to_new as Carry, to_old] {
        assert_eq!(refused(carry, b""), Refusal::Text(0));
        assert_eq!(refused(carry, b"rows=0"), Refusal::Text(6));
        assert_eq!(refused(carry, b"rows=033\nx"), Refusal::Text(6));
        assert_eq!(refused(carry, b"rows=0\nid"), Refusal::NoRows);
        assert_eq!(refused(carry, b"rows=33\nx"), Refusal::ManyRows);
        assert_eq!(refused(carry, b"rows=1\nid=0\nx"), Refusal::Text(12));
        assert_eq!(refused(carry, b"rows=1\r\n"), Refusal::Text(6));
    }
}

/// A text of the other form is at fault where a line p stands or would stand, a longer one where it goes on.
#[test]
fn texts_of_the_other_form() {
    let rows = spoilt(6, 1);
    assert_eq!(refused(to_new, &text(&rows, 7)), Refusal::Text(34));
    assert_eq!(refused(to_old, &text(&rows, 6)), Refusal::Text(34));
    // Of one row alone, the new text goes on after its old lines, and the old one ends before its line p.
    assert_eq!(refused(to_new, &text(&rows[..1], 7)), Refusal::Text(34));
    assert_eq!(refused(to_old, &text(&rows[..1], 6)), Refusal::Text(34));
    for (carry, lines) in [(to_new as Carry, 6), (to_old, 7)] {
        let mut longer = text(&rows, lines);
        let end = longer.len() as u64;
        longer.push(b'\n');
        assert_eq!(refused(carry, &longer), Refusal::Text(end));
    }
}

#[test]
fn rows() {
    let faults = [
        (0, 0, Refusal::Id(1)),
        (2, 0, Refusal::T(1)),
        (3, 11, Refusal::D(1)),
        (1, 0, Refusal::C(1)),
        (5, 65, Refusal::K(1)),
        (4, 3, Refusal::M(1)),
        (0, 5, Refusal::Repeated(1)),
    ];
    for (place, value, refusal) in faults {
        let rows = spoilt(place, value);
        assert_eq!(refused(to_new, &text(&rows, 6)), refusal);
        assert_eq!(refused(to_old, &text(&rows, 7)), refusal);
    }
    assert_eq!(refused(to_old, &text(&spoilt(6, 2), 7)), Refusal::P(1));
}

/// Within a row 9, 16, 10; a row above comes first. The old form has no 16.
#[test]
fn where_p_stands_in_the_order() {
    let good = [5, 1, 10, 10, 1, 2, 0];
    let second = |row: [u32; 7]| text(&[good, row], 7);
    assert_eq!(
        refused(to_old, &second([5, 1, 10, 10, 3, 2, 2])),
        Refusal::M(1)
    );
    assert_eq!(
        refused(to_old, &second([5, 1, 10, 10, 1, 2, 2])),
        Refusal::P(1)
    );
    let above = [[6, 1, 10, 10, 1, 2, 2], [0, 1, 10, 10, 1, 2, 0]];
    assert_eq!(refused(to_old, &text(&above, 7)), Refusal::P(0));
    assert_eq!(refused(to_new, &text(&above, 6)), Refusal::Id(1));
}

/// 17 names the first row whose p is 1, after every refusal of the table and before 13.
#[test]
fn not_old_comes_after_the_table_and_before_the_room() {
    let row = |id, p| [id, 1, 10, 10, 1, 2, p];
    let two_red = [row(1, 0), row(2, 1), row(3, 0), row(4, 1)];
    assert_eq!(refused(to_old, &text(&two_red, 7)), Refusal::NotOld(1));
    for last in 0..ROWS_MAX as u32 {
        let mut rows = even_rows(ROWS_MAX as u32);
        rows[last as usize][6] = 1;
        let refusal = Refusal::NotOld(u64::from(last));
        assert_eq!(refused(to_old, &text(&rows, 7)), refusal);
    }
    let red_then_fault = |fault| text(&[row(1, 1), row(2, 1), fault], 7);
    assert_eq!(refused(to_old, &red_then_fault(row(0, 0))), Refusal::Id(2));
    assert_eq!(refused(to_old, &red_then_fault(row(3, 2))), Refusal::P(2));
    assert_eq!(
        refused(to_old, &red_then_fault(row(2, 0))),
        Refusal::Repeated(2)
    );
    let mut cut = text(&two_red, 7);
    cut.pop();
    let end = cut.len() as u64;
    assert_eq!(refused(to_old, &cut), Refusal::Text(end));
}

/// What is refused with 17 is a table all the same: it is read, and written in the new form.
#[test]
fn a_row_not_old_is_a_row() -> Result<(), Refusal> {
    let new = text(&spoilt(6, 1), 7);
    assert_eq!(refused(to_old, &new), Refusal::NotOld(1));
    let mut words = [0; TABLE_WORDS];
    let table = read(&new, &mut words)?;
    assert_eq!(write(table, &mut [0; TEXT_BYTES])?, new);
    Ok(())
}
