//! "A task table" and its refusals.

use peer::answer::Answer;
use peer::gen::{boundary_table, faulty_table, loaded_table, longest_table, table};
use peer::gen::{six_words_a_row, tiny_table, wide_table};
use peer::rng::Rng;
use peer::table::check;

/// Every refusal of 4 to 10 that applies anywhere is written down with its row,
/// and the least by row and then by number is the one to be given.
fn check_by_list(words: &[u32]) -> Answer {
    if !words.len().is_multiple_of(7) {
        return Answer::refused(1);
    }
    let rows: Vec<&[u32]> = words.chunks(7).collect();
    match rows.len() {
        0 => return Answer::refused(2),
        1..=32 => (),
        _ => return Answer::refused(3),
    }
    let mut applies = Vec::new();
    for (at, row) in rows.iter().enumerate() {
        let [id, c, t, d, m, k, p] = [0, 1, 2, 3, 4, 5, 6].map(|field| u64::from(row[field]));
        let outside = [
            (4, !(1..=65_535).contains(&id)),
            (5, !(1..=65_535).contains(&t)),
            (6, d == 0 || t < d),
            (7, !(1..=65_535).contains(&c)),
            (8, !(1..=64).contains(&k)),
            (9, m == 0 || k < m),
            (16, p != 0 && p != 1),
            (10, (0..at).any(|other| rows[other][0] == row[0])),
        ];
        // 16 "comes after 9 and before 10": the order in which they stand above.
        let numbered = outside.iter().enumerate().filter(|(_, (_, yes))| *yes);
        applies.extend(numbered.map(|(turn, (no, _))| (at as u64, turn, *no)));
    }
    match applies.iter().min() {
        Some(&(row, _, number)) => Answer::refused_at(number, row),
        None => Answer::accepted(rows.len() as u64),
    }
}

#[test]
fn refusals_come_row_by_row_in_number_order() {
    let mut rng = Rng::new(2);
    let mut seen = [0u32; 17];
    for _ in 0..100_000 {
        let words = faulty_table(&mut rng);
        let answer = check(&words);
        assert_eq!(answer, check_by_list(&words), "{words:?}");
        seen[answer.refusal as usize] += 1;
    }
    for number in (0..=10).chain([16]) {
        assert!(seen[number] > 300, "{number}: {seen:?}");
    }
}

#[test]
fn drawn_tables_are_well_formed() {
    let mut rng = Rng::new(3);
    let draws = [table, boundary_table, wide_table, tiny_table, loaded_table];
    for draw in draws {
        let mut sizes = [0u32; 33];
        for _ in 0..5_000 {
            let words = draw(&mut rng);
            let rows = words.len() / 7;
            assert_eq!(check(&words), Answer::accepted(rows as u64), "{words:?}");
            sizes[rows] += 1;
        }
        assert!(sizes[1..].iter().all(|&tables| tables > 0), "{sizes:?}");
    }
    assert_eq!(check(&longest_table()), Answer::accepted(32));
}

/// Each range at its two ends and one past each.
#[test]
fn each_range_at_its_ends() {
    let sound = [7, 5, 9, 8, 2, 3, 1];
    // field, lower end, upper end, number
    let ranges = [
        (0, 1, 65_535, 4),
        (1, 1, 65_535, 7),
        (3, 1, 9, 6),
        (4, 1, 3, 9),
    ];
    for (field, low, high, number) in ranges {
        for (value, inside) in [
            (low - 1, false),
            (low, true),
            (high, true),
            (high + 1, false),
        ] {
            let mut words = sound;
            words[field] = value;
            let expected = if inside {
                Answer::accepted(1)
            } else {
                Answer::refused_at(number, 0)
            };
            assert_eq!(check(&words), expected, "field {field}: {value}");
        }
    }
}

/// T bounds D and k bounds m, so these two are moved with the others held.
#[test]
fn the_two_ranges_that_bound_others() {
    for (t, expected) in [
        (0, 5),
        (7, 6),
        (8, 0),
        (65_535, 0),
        (65_536, 5),
        (u32::MAX, 5),
    ] {
        assert_eq!(check(&[7, 5, t, 8, 2, 3, 0]).refusal, expected, "T {t}");
    }
    for (k, expected) in [(0, 8), (1, 9), (2, 0), (64, 0), (65, 8), (u32::MAX, 8)] {
        assert_eq!(check(&[7, 5, 9, 8, 2, k, 1]).refusal, expected, "k {k}");
    }
}

/// Lengths alone: 1 before 2 and 3, and none of the words is looked at.
#[test]
fn lengths() {
    for length in 0..400 {
        let expected = match (length % 7, length / 7) {
            (1.., _) => Answer::refused(1),
            (0, 0) => Answer::refused(2),
            (0, 1..=32) => Answer::refused_at(4, 0),
            _ => Answer::refused(3),
        };
        assert_eq!(check(&vec![0; length]), expected, "{length} words");
    }
}

/// "C above D is well formed; the verdict turns it down."
#[test]
fn c_above_d() {
    let words = [1, 65_535, 1, 1, 1, 1, 0];
    assert_eq!(check(&words), Answer::accepted(1));
    let answer = peer::verdict::verdict(&words, &mut [0]);
    assert_eq!(answer, Answer::refused_at(11, 0));
}

/// "A row gains a seventh word p, 0 for even, 1 for deeply-red"; "16, p above 1".
#[test]
fn p_at_its_ends() {
    for (p, expected) in [
        (0, 0),
        (1, 0),
        (2, 16),
        (3, 16),
        (65_535, 16),
        (u32::MAX, 16),
    ] {
        let answer = check(&[7, 5, 9, 8, 2, 3, 1, 8, 5, 9, 8, 2, 3, p]);
        let row = if expected == 0 { 2 } else { 1 };
        assert_eq!((answer.refusal, answer.value), (expected, row), "p {p}");
    }
}

/// 16 "comes after 9 and before 10", in one row and from row to row.
#[test]
fn sixteen_stands_between_nine_and_ten() {
    let sound = [[7, 5, 9, 8, 2, 3, 0], [8, 5, 9, 8, 2, 3, 1]];
    let fault = |rows: &mut [[u32; 7]; 2], row: usize, number: u64| match number {
        9 => rows[row][4] = 4,
        10 => rows[row][0] = rows[0][0],
        _ => rows[row][6] = 2,
    };
    for (in_row, expected) in [(vec![9, 16], 9), (vec![10, 16], 16), (vec![9, 10, 16], 9)] {
        let mut rows = sound;
        in_row
            .iter()
            .for_each(|&number| fault(&mut rows, 1, number));
        let answer = check(rows.as_flattened());
        assert_eq!(answer, Answer::refused_at(expected, 1), "{in_row:?}");
    }
    for (first, second) in [(9, 16), (16, 9), (16, 10), (16, 16)] {
        let mut rows = sound;
        fault(&mut rows, 0, first);
        fault(&mut rows, 1, second);
        let answer = check(rows.as_flattened());
        assert_eq!(
            answer,
            Answer::refused_at(first, 0),
            "{first} then {second}"
        );
    }
}

/// Tables as they were before: seven rows of six words are looked at as six of seven.
#[test]
fn six_words_to_a_row() {
    let mut rng = Rng::new(8);
    for _ in 0..2_000 {
        let words = table(&mut rng);
        let (six, rows) = (six_words_a_row(&words), words.len() / 7);
        assert_eq!(six.len(), 6 * rows);
        let answer = check(&six);
        assert_eq!(answer, check_by_list(&six));
        assert_eq!(answer == Answer::refused(1), rows % 7 != 0, "{six:?}");
    }
}
