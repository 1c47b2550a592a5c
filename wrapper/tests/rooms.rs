//! Request 7/14 of document 02: the room of a row. The figures of the tables that have a name here are worked out by hand.

use galleypoppy::{rooms, verdict, Refusal, ROWS_MAX, TASK_WORDS};

/// Document 01's P5 and P7.
const P5: [u32; 14] = [11, 2, 4, 4, 1, 2, 0, 12, 4, 6, 6, 2, 3, 0];
const P7: [u32; 14] = [1, 2, 4, 4, 1, 1, 0, 2, 2, 5, 5, 1, 1, 0];

/// The music stand, admitted; its radio slot is deeply-red.
const STAND: [u32; 28] = [
    1, 1, 5, 2, 1, 1, 0, 2, 6, 20, 20, 2, 3, 0, 3, 14, 40, 40, 3, 5, 0, 4, 20, 100, 100, 2, 4, 1,
];

/// Places of a row's words.
const C: usize = 1;
const T: usize = 2;
const D: usize = 3;
const M: usize = 4;
const K: usize = 5;
const P: usize = 6;

/// The words with another value at one place of a row.
fn with(words: &[u32], row: usize, place: usize, value: u32) -> Vec<u32> {
    let mut words = words.to_vec();
    words[row * TASK_WORDS + place] = value;
    words
}

fn rooms_of(words: &[u32]) -> Vec<u32> {
    let mut room = [0; ROWS_MAX];
    rooms(words, &mut room).expect("a table").to_vec()
}

/// The first row that doesn't fit, or the number of rows where all do.
fn misfit(words: &[u32]) -> usize {
    match verdict(words, &mut [0; ROWS_MAX]) {
        Ok(responses) => responses.len(),
        Err(Refusal::Unschedulable(row)) => row as usize,
        Err(refusal) => panic!("{refusal}"),
    }
}

/// How many of the first q jobs of a row are mandatory.
fn count(row: &[u32], q: u32) -> u32 {
    let (m, k) = (row[M], row[K]);
    if row[P] == 1 {
        q / k * m + m.min(q % k)
    } else {
        (q * m).div_ceil(k)
    }
}

/// Document 02's formula, taken at every tick.
fn by_formula(words: &[u32], row: usize) -> u32 {
    let rows: Vec<&[u32]> = words.chunks(TASK_WORDS).collect();
    let brought = |t: u32| {
        let above = rows[..row].iter();
        above
            .map(|row| row[C] * count(row, t.div_ceil(row[T])))
            .sum::<u32>()
    };
    let at_each = (1..=rows[row][D]).map(|t| t.saturating_sub(brought(t)));
    at_each.max().unwrap_or_default()
}

/// Tables of one to eight rows, of both patterns, some of them admitted.
fn mixture() -> Vec<Vec<u32>> {
    let mut seed = 0x9E37_79B9_7F4A_7C15_u64;
    let mut from_1_to = |most: u32| {
        seed ^= seed << 13;
        seed ^= seed >> 7;
        seed ^= seed << 17;
        1 + (seed >> 20) as u32 % most
    };
    let mut table = |rows: u32| -> Vec<u32> {
        let row = |id| {
            let t = from_1_to(300);
            let (c, d, k) = (from_1_to(1 + t / rows), from_1_to(t), from_1_to(64));
            // Half of the deadlines are at the period.
            let d = if from_1_to(2) == 1 { t } else { d };
            [id, c, t, d, from_1_to(k), k, from_1_to(2) - 1]
        };
        (1..=rows).flat_map(row).collect()
    };
    (0..600).map(|i| table(1 + i % 8)).collect()
}

/// Row 1 of P5 has 6 - 2 at tick 6: its C is 4, and 5 in P6. Row 1 of P7 has 4 - 2 at tick 4 and only 5 - 4 at its deadline: its C is 2,
/// and 3 in P8. P9 and P10 have one row.
#[test]
fn document_01s_tables() {
    assert_eq!(rooms_of(&P5), [4, 4]);
    assert_eq!(rooms_of(&with(&P5, 1, C, 5)), [4, 4]);
    assert_eq!(rooms_of(&P7), [4, 2]);
    assert_eq!(rooms_of(&with(&P7, 1, C, 3)), [4, 2]);
    assert_eq!(rooms_of(&[1, 1, 1, 1, 1, 1, 0]), [1]);
    assert_eq!(rooms_of(&[1, 2, 4, 1, 1, 1, 0]), [1]);
}

/// The tuner has 20 - 4 at tick 20, the screen 40 - 8 - 12 at 40, the radio slot 100 - 20 - 24 - 28 at 100. With a screen of 20, its
/// room, the radio slot has 100 - 20 - 24 - 40.
#[test]
fn the_stands() {
    assert_eq!(rooms_of(&STAND), [2, 16, 20, 28]);
    let longer_screen = with(&STAND, 2, C, 20);
    assert_eq!(misfit(&longer_screen), 3);
    assert_eq!(rooms_of(&longer_screen), [2, 16, 20, 16]);
    assert_eq!(misfit(&with(&longer_screen, 3, C, 16)), 4);
}

/// A deeply-red screen brings 42 by tick 100, and the radio slot has 14 there; at tick 80 it has 80 - 16 - 18 - 28.
#[test]
fn each_row_above_counts_by_its_own_pattern() {
    let red_screen = with(&STAND, 2, P, 1);
    assert_eq!(rooms_of(&red_screen), [2, 16, 20, 18]);
    let even_radio = with(&STAND, 3, P, 0);
    assert_eq!(rooms_of(&even_radio), [2, 16, 20, 28]);
}

/// The pedal scan doesn't fit. The tuner has 20 - 12 at tick 20, the screen 40 - 24 - 12 at 40, and nothing is left for the radio slot.
#[test]
fn below_the_row_named() {
    let table = with(&STAND, 0, C, 3);
    assert_eq!(misfit(&table), 0);
    assert_eq!(rooms_of(&table), [2, 8, 4, 0]);
}

/// A tuner of 16 fits and takes 32 of the screen's 40 ticks, the pedal scan the others.
#[test]
fn a_higher_c_takes_room_from_the_rows_below() {
    let table = with(&STAND, 1, C, 16);
    assert_eq!(misfit(&table), 2);
    assert_eq!(rooms_of(&table), [2, 16, 0, 0]);
}

/// No row is above it.
#[test]
fn the_room_of_row_0_is_its_d() {
    for d in [1, 2, 64, 1000, 65_534, 65_535] {
        let row = [1, 65_535, 65_535, d, 3, 5, 1];
        assert_eq!(rooms_of(&row), [d]);
        assert_eq!(misfit(&with(&row, 0, C, d)), 1);
    }
    let c_65536 = [1, 65_536, 65_535, 65_535, 1, 1, 0];
    assert_eq!(rooms(&c_65536, &mut [0]), Err(Refusal::C(0)));
}

/// 32 rows that release together, every one with a tick less than the row above.
#[test]
fn a_full_table() {
    let row = |id| [id, 1, 100, 100, 1, 1, 0];
    let table: Vec<u32> = (1..=32).flat_map(row).collect();
    let expected: Vec<u32> = (69..=100).rev().collect();
    assert_eq!(rooms_of(&table), expected);
}

/// The load of 31 rows of C 65535 and T 1 by tick 65535 is far above 32 bits; that of as many with T 65535 is not.
#[test]
fn the_largest_loads() {
    for t in [1, 65_535] {
        let row = |id| [id, 65_535, t, t, 1, 1, 0];
        let mut table: Vec<u32> = (1..=31).flat_map(row).collect();
        table.extend([32, 1, 65_535, 65_535, 1, 1, 0]);
        let mut expected = [0; 32];
        expected[0] = t;
        assert_eq!(rooms_of(&table), expected);
    }
}

#[test]
fn the_formula_of_document_02() {
    for table in mixture() {
        let rows = table.len() / TASK_WORDS;
        let expected: Vec<u32> = (0..rows).map(|row| by_formula(&table, row)).collect();
        assert_eq!(rooms_of(&table), expected);
    }
}

/// The row that the verdict names is the first whose C is above its room.
#[test]
fn a_row_fits_when_its_c_is_at_most_its_room() {
    let (mut admitted, mut turned_down) = (0, 0);
    for table in mixture() {
        let rows = table.chunks(TASK_WORDS);
        let rooms = rooms_of(&table);
        let first = rows.zip(&rooms).position(|(row, &room)| row[C] > room);
        assert_eq!(misfit(&table), first.unwrap_or(rooms.len()));
        match first {
            None => admitted += 1,
            Some(_) => turned_down += 1,
        }
    }
    assert!(admitted >= 100 && turned_down >= 100);
}

/// Where the rows above fit: with its room as C a row is not the one that is named, with one more it is.
#[test]
fn c_may_be_raised_to_the_room() {
    for table in mixture() {
        let rooms = rooms_of(&table);
        let all_above_fit = ..=misfit(&table);
        for (row, room) in rooms.into_iter().enumerate() {
            if all_above_fit.contains(&row) {
                assert!(room == 0 || misfit(&with(&table, row, C, room)) > row);
                assert_eq!(misfit(&with(&table, row, C, room + 1)), row);
            }
        }
    }
}

/// Of a row's own words only D plays a part in its room; and no word of a row does in the rooms above it.
#[test]
fn what_plays_no_part() {
    for table in mixture() {
        let rooms = rooms_of(&table);
        for row in 0..rooms.len() {
            let k = table[row * TASK_WORDS + K];
            for (place, value) in [(0, 99), (C, 65_535), (T, 65_535), (M, k), (K, 64), (P, 1)] {
                let other = rooms_of(&with(&table, row, place, value));
                assert_eq!(other[..=row], rooms[..=row]);
            }
            let other = rooms_of(&with(&table, row, D, 1));
            assert_eq!(other[..row], rooms[..row]);
        }
    }
}

/// As many words as rows are enough; words after them are as they were, and where there are fewer, all are.
#[test]
fn the_lent_words() {
    let mut room = [77; 6];
    for short in 0..4 {
        assert_eq!(rooms(&STAND, &mut room[..short]), Err(Refusal::Room));
    }
    assert_eq!(room, [77; 6]);
    assert_eq!(rooms(&STAND, &mut room[1..5]), Ok(&[2, 16, 20, 28][..]));
    assert_eq!(room, [77, 2, 16, 20, 28, 77]);
    assert_eq!(rooms(&P5, &mut room), Ok(&[4, 4][..]));
    assert_eq!(room, [4, 4, 16, 20, 28, 77]);
}

/// The refusals of the table, then 13. There is no 11, and a verdict that is refused by it leaves no rooms behind.
#[test]
fn the_order_of_refusals() {
    let mut room = [77; 2];
    assert_eq!(rooms(&[1; 8], &mut []), Err(Refusal::NotWholeRows));
    assert_eq!(rooms(&[], &mut []), Err(Refusal::NoRows));
    assert_eq!(rooms(&[0; 33 * 7], &mut []), Err(Refusal::ManyRows));
    for (place, value, refusal) in [
        (0, 0, Refusal::Id(1)),
        (T, 0, Refusal::T(1)),
        (D, 7, Refusal::D(1)),
        (C, 0, Refusal::C(1)),
        (K, 65, Refusal::K(1)),
        (M, 4, Refusal::M(1)),
        (P, 2, Refusal::P(1)),
        (0, 11, Refusal::Repeated(1)),
    ] {
        let table = with(&P5, 1, place, value);
        assert_eq!(rooms(&table, &mut []), Err(refusal));
        assert_eq!(rooms(&table, &mut room), Err(refusal));
    }
    let p6 = with(&P5, 1, C, 5);
    assert_eq!(verdict(&p6, &mut room), Err(Refusal::Unschedulable(1)));
    assert_eq!(rooms(&p6, &mut room[..1]), Err(Refusal::Room));
    assert_eq!(room, [77; 2]);
    assert_eq!(rooms(&p6, &mut room), Ok(&[4, 4][..]));
}
