//! Document 02, 7/14: the room of a row, by hand, by every tick and by stretches, and
//! what it tells of the verdict.

use peer::answer::Answer;
use peer::brute;
use peer::gen::{boundary_table, draw_patterns, faulty_table, loaded_table};
use peer::gen::{longest_table, table, tiny_table, wide_table};
use peer::rng::Rng;
use peer::rooms::{room, room_by_leaps, room_by_steps, room_by_stretches};
use peer::rooms::{rooms, rooms_by_leaps, rooms_by_steps, rooms_by_stretches};
use peer::rooms::{verdict_by_room_leaps, verdict_by_rooms};
use peer::rooms::{verdict_by_rooms_walking, verdict_by_steps};
use peer::table::{check, Table, ROWS_MAX, WORD_MAX};
use peer::verdict::{load, load_above, response, verdict};

/// Every way to the rooms of a table.
type Rooms = fn(&[u32], &mut [u32]) -> Answer;
const ALL: [Rooms; 5] = [
    rooms,
    rooms_by_stretches,
    rooms_by_steps,
    rooms_by_leaps,
    brute::rooms::rooms,
];

/// A table of rows C, T, D, m, k, p, with the ids 1, 2, and on.
fn table_of(rows: &[[u32; 6]]) -> Vec<u32> {
    let numbered = (1..).zip(rows);
    numbered
        .flat_map(|(id, row)| [&[id], &row[..]].concat())
        .collect()
}

/// The rooms of a well-formed table, one and the same however they are found.
fn found(words: &[u32]) -> Vec<u32> {
    let table = Table::of(words).unwrap();
    let rows = table.rows().len();
    let every: Vec<u32> = (0..rows).map(|row| room(&table, row)).collect();
    for by in [room_by_stretches, room_by_steps, room_by_leaps] {
        let found: Vec<u32> = (0..rows).map(|row| by(&table, row)).collect();
        assert_eq!(found, every, "{words:?}");
    }
    for all in ALL {
        let mut lent = vec![77; rows + 2];
        assert_eq!(all(words, &mut lent), Answer::accepted(rows as u64));
        assert_eq!(lent, [&every[..], &[77, 77]].concat(), "{words:?}");
    }
    every
}

/// P5 to P10: with no row above the room is D, and in P7 it is had before D only.
#[test]
fn document_01s_tables() {
    let p5 = [[2, 4, 4, 1, 2, 0], [4, 6, 6, 2, 3, 0]];
    assert_eq!(found(&table_of(&p5)), [4, 4]);
    let p6 = [[2, 4, 4, 1, 2, 0], [5, 6, 6, 2, 3, 0]];
    assert_eq!(found(&table_of(&p6)), [4, 4]);
    let p7 = [[2, 4, 4, 1, 1, 0], [2, 5, 5, 1, 1, 0]];
    assert_eq!(found(&table_of(&p7)), [4, 2]);
    let p8 = [[2, 4, 4, 1, 1, 0], [3, 5, 5, 1, 1, 0]];
    assert_eq!(found(&table_of(&p8)), [4, 2]);
    assert_eq!(found(&table_of(&[[1, 1, 1, 1, 1, 0]])), [1]);
    assert_eq!(found(&table_of(&[[2, 4, 1, 1, 1, 0]])), [1]);
    // P7: 4 less 2 is 2, 5 less 4 is 1.
    let table = Table::of(&table_of(&p7)).unwrap();
    let above = [1, 4, 5, 8, 9].map(|t| load_above(&table, 1, t));
    assert_eq!(above, [2, 2, 4, 4, 6]);
    assert_eq!(load(&table, 1, 5), 6);
}

/// "or 0 if that is never positive": the rows above leave no tick, or fewer than none.
#[test]
fn no_room() {
    let below = [1, 9, 9, 1, 1, 0];
    for c in [1, 2, 65_535] {
        assert_eq!(found(&table_of(&[[c, 1, 1, 1, 1, 0], below])), [1, 0]);
    }
    // By 4 the rows above row 2 bring c and 1, by 5 they bring c and 2.
    let upper = |c| [[c, 5, 5, 1, 1, 0], [1, 4, 4, 1, 1, 0], [1, 5, 5, 1, 1, 0]];
    assert_eq!(found(&table_of(&upper(5))), [5, 0, 0]);
    assert_eq!(found(&table_of(&upper(3))), [5, 1, 0]);
    assert_eq!(found(&table_of(&upper(2))), [5, 2, 1]);
}

/// (2,4) with a job in each tick: by 1, 2, 3, 4 the even pattern brings 1, 1, 2, 2, the
/// deeply-red one 1, 2, 2, 2; by 5 and 6 the even one 3, 3, the other 3, 4.
#[test]
fn either_pattern_above() {
    let of = |d: u32, p: u32| {
        let words = table_of(&[[1, 1, 1, 2, 4, p], [1, 9, d, 1, 1, 1 - p]]);
        found(&words)[1]
    };
    assert_eq!([1, 2, 3, 4, 5, 6].map(|d| of(d, 0)), [0, 1, 1, 2, 2, 3]);
    assert_eq!([1, 2, 3, 4, 5, 6].map(|d| of(d, 1)), [0, 0, 1, 2, 2, 2]);
}

/// The row that is turned down has its room, and the rows below it have theirs, with
/// its C among what is above them.
#[test]
fn turned_down() {
    let rows = [
        [9, 10, 5, 1, 2, 0],
        [1, 10, 10, 1, 1, 0],
        [1, 20, 20, 1, 1, 0],
    ];
    let words = table_of(&rows);
    assert_eq!(verdict(&words, &mut [0; 3]), Answer::refused_at(11, 0));
    // By 10 row 0 brings 9; by 20, with one mandatory job of two, 9 still, and row 1 2.
    assert_eq!(found(&words), [5, 1, 9]);
}

/// The ends of the ranges. One job of 64 in each tick: by 65,535 there are 1,024.
#[test]
fn ends_of_ranges() {
    let last = [1, WORD_MAX, WORD_MAX, 1, 1, 0];
    assert_eq!(found(&table_of(&[last])), [65_535]);
    let each_tick = [1, 1, 1, 1, 64, 0];
    assert_eq!(found(&table_of(&[each_tick, last])), [1, 64_511]);
    assert_eq!(found(&table_of(&[last, last])), [65_535, 65_534]);
    let all = [WORD_MAX, WORD_MAX, WORD_MAX, 64, 64, 1];
    assert_eq!(found(&table_of(&[all, last])), [65_535, 0]);
    let most = [WORD_MAX - 1, WORD_MAX, WORD_MAX, 1, 1, 0];
    assert_eq!(found(&table_of(&[most, last, last])), [65_535, 1, 0]);
    let mut expected = vec![0; ROWS_MAX];
    expected[0] = 65_535;
    assert_eq!(found(&longest_table()), expected);
    let ones = vec![[1, WORD_MAX, WORD_MAX, 1, 1, 0]; ROWS_MAX];
    let down: Vec<u32> = (0..32).map(|row| 65_535 - row).collect();
    assert_eq!(found(&table_of(&ones)), down);
}

/// A row that the table does not have.
#[test]
fn no_such_row() {
    let table = Table::of(&table_of(&[[1, 9, 9, 1, 1, 0]])).unwrap();
    for row in [1, 2, 32, usize::MAX] {
        for by in [room, room_by_stretches, room_by_steps, room_by_leaps] {
            assert_eq!(by(&table, row), 0);
        }
        assert_eq!((load(&table, row, 5), load_above(&table, row, 5)), (0, 1));
    }
}

/// Short periods, patterns of every kind: every way to find the rooms, and "A row fits
/// exactly when its C is at most its room."
#[test]
fn drawn_tables() {
    let mut rng = Rng::new(70);
    let (mut fitting, mut misfits, mut none) = (0, 0, 0);
    for at in 0..4_000 {
        let words = [loaded_table, tiny_table][at % 2](&mut rng);
        let table = Table::of(&words).unwrap();
        for (row, room) in found(&words).into_iter().enumerate() {
            let fits = response(&table, row).is_some();
            let own = table.rows()[row];
            assert_eq!(fits, own.c <= room, "{words:?} row {row}");
            assert!(room <= own.d);
            fitting += u32::from(fits);
            misfits += u32::from(!fits);
            none += u32::from(room == 0);
        }
    }
    assert!(fitting > 5_000 && misfits > 5_000 && none > 1_000);
}

/// Periods up to the end of their range: all rows in one walk, and by stretches.
#[test]
fn drawn_wide_tables() {
    let mut rng = Rng::new(71);
    for at in 0..300 {
        let words = [boundary_table, wide_table, table][at % 3](&mut rng);
        let lent = ALL.map(|all| {
            let mut lent = [7; ROWS_MAX];
            (all(&words, &mut lent), lent)
        });
        assert_eq!(lent, [lent[0]; 5], "{words:?}");
    }
}

/// The verdicts that ask for the room, and the one that does not.
#[test]
fn the_verdict_uses_it() {
    let mut rng = Rng::new(72);
    let (mut admitted, mut refused) = (0, 0);
    for at in 0..3_000 {
        let words = match at % 3 {
            0 => faulty_table(&mut rng),
            1 => loaded_table(&mut rng),
            _ => tiny_table(&mut rng),
        };
        let before = vec![9; rng.index(words.len() / 7 + 3)];
        let mut room = before.clone();
        let answer = verdict(&words, &mut room);
        for judge in [
            verdict_by_rooms,
            verdict_by_steps,
            verdict_by_room_leaps,
            verdict_by_rooms_walking,
        ] {
            let mut other = before.clone();
            assert_eq!(judge(&words, &mut other), answer, "{words:?}");
            assert_eq!(other, room, "{words:?}");
        }
        admitted += u32::from(answer.is_accepted());
        refused += u32::from(answer.refusal == 11);
    }
    assert!(admitted > 300 && refused > 300, "{admitted} and {refused}");
}

/// The table's refusals, then 13; never 11. No refusal alters a word.
#[test]
fn the_order_of_refusals() {
    let mut rng = Rng::new(73);
    let mut seen = [0u32; 17];
    for _ in 0..6_000 {
        let words = if rng.once_in(3) {
            faulty_table(&mut rng)
        } else {
            tiny_table(&mut rng)
        };
        let rows = words.len() / 7;
        let before = vec![5; rng.index(rows + 2)];
        let of_the_words = check(&words);
        let due = if of_the_words.is_accepted() && before.len() < rows {
            Answer::refused(13)
        } else {
            of_the_words
        };
        for all in ALL {
            let mut lent = before.clone();
            assert_eq!(all(&words, &mut lent), due, "{words:?}");
            if !due.is_accepted() {
                assert_eq!(lent, before, "{words:?}");
            }
        }
        seen[due.refusal as usize] += 1;
    }
    let expected = [0, 1, 2, 3, 4, 5, 6, 7, 8, 9, 10, 13, 16];
    assert!(expected.iter().all(|&number| seen[number] > 0), "{seen:?}");
    assert_eq!(seen[11], 0);
}

/// What the planner does with it: with C at its room a row fits, with one unit more it
/// does not; and neither what the row is otherwise, save its D, nor a row below counts.
#[test]
fn what_the_planner_does() {
    let mut rng = Rng::new(74);
    for _ in 0..2_000 {
        let words = loaded_table(&mut rng);
        let rooms = found(&words);
        let row = rng.index(rooms.len());
        let mut other = words.clone();
        draw_patterns(&mut rng, &mut other[7 * row..]);
        other[7 * row + 1] = rooms[row].clamp(1, WORD_MAX);
        let fits = |words: &[u32]| response(&Table::of(words).unwrap(), row).is_some();
        assert_eq!(fits(&other), rooms[row] > 0, "{words:?} row {row}");
        other[7 * row + 1] = rooms[row] + 1;
        assert!(!fits(&other), "{words:?} row {row}");
        assert_eq!(found(&other)[..=row], rooms[..=row], "{words:?} row {row}");
    }
}
