//! "Verdict": loads, response times and the order of refusals.

use peer::brute;
use peer::brute::pattern::is_mandatory;
use peer::gen::{draw_patterns, faulty_table, loaded_table, table};
use peer::rng::Rng;
use peer::table::{check, Table};
use peer::verdict::{load, response, response_leaping, verdict, verdict_leaping};

/// The load by counting: C of the row, and C once for every mandatory job that
/// a row above releases before t.
fn load_by_counting(table: &Table, row: usize, t: u32) -> u64 {
    let rows = table.rows();
    let mut load = u64::from(rows[row].c);
    for above in &rows[..row] {
        let released = (0..).take_while(|a| u64::from(a * above.t) < u64::from(t));
        let jobs = released
            .filter(|&a| is_mandatory(above.pattern(), a))
            .count();
        load += jobs as u64 * u64::from(above.c);
    }
    load
}

#[test]
fn the_load_counts_mandatory_releases() {
    let mut rng = Rng::new(4);
    for _ in 0..300 {
        let table = Table::of(&loaded_table(&mut rng)).unwrap();
        let row = rng.index(table.rows().len());
        let mut last = 0;
        for t in 1..300 {
            let now = load(&table, row, t);
            assert_eq!(
                now,
                load_by_counting(&table, row, t),
                "{table:?} row {row} t {t}"
            );
            assert!(now >= last, "the load fell");
            last = now;
        }
    }
}

#[test]
fn the_largest_loads_do_not_overflow() {
    let table = Table::of(&peer::gen::longest_table()).unwrap();
    assert_eq!(load(&table, 31, 1), 32 * 65_535);
    assert_eq!(load(&table, 31, 65_536), 65_535 * 63);
    let ones: Vec<u32> = (1..=32)
        .flat_map(|id| [id, 65_535, 1, 1, 64, 64, id % 2])
        .collect();
    let table = Table::of(&ones).unwrap();
    let expected = 65_535 + 31 * 65_535 * u64::from(u32::MAX);
    assert_eq!(load(&table, 31, u32::MAX), expected);
    assert_eq!(load(&table, 32, u32::MAX), 0);
    assert_eq!(
        (response(&table, 32), response_leaping(&table, 32)),
        (None, None)
    );
}

/// Both searches, on rooms of every length around the number of rows.
#[test]
fn walking_and_leaping_agree() {
    let mut rng = Rng::new(5);
    let (mut admitted, mut refused) = (0, 0);
    for _ in 0..4_000 {
        let words = table(&mut rng);
        let rows = words.len() / 7;
        let mut room = vec![0xABCD_EF01; rows + rng.index(4)];
        let untouched = room.clone();
        let mut leapt = room.clone();
        let answer = verdict(&words, &mut room);
        assert_eq!(verdict_leaping(&words, &mut leapt), answer, "{words:?}");
        assert_eq!(room, leapt, "{words:?}");
        if answer.is_accepted() {
            admitted += 1;
            assert_eq!(answer.value, rows as u64);
            assert_eq!(room[rows..], untouched[rows..]);
        } else {
            refused += 1;
            assert_eq!(answer.refusal, 11);
            assert_eq!(room, untouched);
        }
    }
    assert!(
        admitted > 1_000 && refused > 1_000,
        "{admitted} and {refused}"
    );
}

/// The response is the first tick that fits, none before it does, and the row
/// named by 11 is the first with no such tick up to D.
#[test]
fn the_first_tick_that_fits() {
    let mut rng = Rng::new(6);
    for _ in 0..600 {
        let words = loaded_table(&mut rng);
        let table = Table::of(&words).unwrap();
        let mut room = vec![0; words.len() / 7];
        let answer = verdict(&words, &mut room);
        let fits = |row: usize, t: u32| load_by_counting(&table, row, t) <= u64::from(t);
        for (row, task) in table.rows().iter().enumerate() {
            let first = (1..=task.d).find(|&t| fits(row, t));
            if answer.refusal == 11 && row as u64 == answer.value {
                assert_eq!(first, None);
                break;
            }
            let found = response(&table, row);
            assert!(first.is_some() && first == found, "{words:?} row {row}");
            if answer.is_accepted() {
                assert_eq!(first, Some(room[row]));
            }
        }
    }
}

/// "for words 1, 2, 3, then row by row 4 to 10 in number order, then 13, then
/// 11"; and no refusal alters the room.
#[test]
fn the_order_of_refusals() {
    let mut rng = Rng::new(7);
    let mut seen = [0u32; 17];
    for _ in 0..6_000 {
        let words = if rng.once_in(3) {
            faulty_table(&mut rng)
        } else {
            table(&mut rng)
        };
        let rows = words.len() / 7;
        let mut room = vec![5; rng.index(rows + 2)];
        let before = room.clone();
        let answer = verdict(&words, &mut room);
        let of_the_words = check(&words);
        if !of_the_words.is_accepted() {
            assert_eq!(answer, of_the_words);
        } else if room.len() < rows {
            assert_eq!((answer.refusal, answer.value), (13, 0));
        } else {
            assert!(answer.refusal == 0 || answer.refusal == 11);
        }
        if !answer.is_accepted() {
            assert_eq!(room, before);
        }
        seen[answer.refusal as usize] += 1;
    }
    let expected = [0, 1, 2, 3, 4, 5, 6, 7, 8, 9, 10, 11, 13, 16];
    assert!(expected.iter().all(|&number| seen[number] > 0), "{seen:?}");
}

/// The walk, the leaps and the count of jobs one by one: one answer and one room.
#[test]
fn counting_agrees() {
    let mut rng = Rng::new(9);
    let (mut admitted, mut refused) = (0, 0);
    for at in 0..3_000 {
        let words = [loaded_table, table][at % 2](&mut rng);
        let mut rooms = [[7; 33]; 3];
        let [walked, leapt, counted] = &mut rooms;
        let answer = brute::verdict::verdict(&words, counted);
        assert_eq!(verdict(&words, walked), answer, "{words:?}");
        assert_eq!(verdict_leaping(&words, leapt), answer, "{words:?}");
        assert_eq!(rooms, [rooms[0]; 3], "{words:?}");
        admitted += u32::from(answer.is_accepted());
        refused += u32::from(answer.refusal == 11);
    }
    assert!(admitted > 500 && refused > 500, "{admitted} and {refused}");
}

/// "a table admitted with some rows deeply-red is admitted with those rows even", and
/// no response time grows. The other way round there are tables that are not.
#[test]
fn even_where_it_was_red() {
    let mut rng = Rng::new(64);
    let (mut shorter, mut lost) = (0, 0);
    for _ in 0..6_000 {
        let mut words = loaded_table(&mut rng);
        draw_patterns(&mut rng, &mut words);
        let (mut before, mut after) = ([0; 32], [0; 32]);
        let admitted = verdict_leaping(&words, &mut before).is_accepted();
        let mut eased = words.clone();
        eased.iter_mut().skip(6).step_by(7).for_each(|p| {
            *p = if rng.once_in(2) { 0 } else { *p };
        });
        let eased = verdict_leaping(&eased, &mut after);
        if admitted {
            assert!(eased.is_accepted(), "{words:?}");
            assert!(after.iter().zip(&before).all(|(a, b)| a <= b), "{words:?}");
            shorter += u32::from(after != before);
        }
        lost += u32::from(eased.is_accepted() && !admitted);
    }
    assert!(shorter > 10 && lost > 10, "{shorter} and {lost}");
}
