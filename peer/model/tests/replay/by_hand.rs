//! P5 with logs written by hand. Row 0 releases at 0, 4, 8, 12, 16, 20 and row 1 at 0, 6,
//! 12, 18; so the log is of rows 0, 1, 0, 1, 0, 0, 1, 0, 1, 0.

use super::{answered, fresh, replayed, P5};

/// The ticks of those releases, and the rows' C.
const JOBS: [(u32, u32); 10] = [
    (0, 2),
    (0, 4),
    (4, 2),
    (6, 4),
    (8, 2),
    (12, 2),
    (12, 4),
    (16, 2),
    (18, 4),
    (20, 2),
];

/// Row 0 takes tick 0, row 1 ticks 1 and 2, tick 3 is idle; row 0 takes 4 and 5, row 1
/// tick 6, tick 7 is idle. Tick 8 releases a job for which there is no number.
#[test]
fn a_short_log() {
    let mut words = fresh(&P5);
    assert_eq!(replayed(&mut words, 24, &[1, 2, 2, 1]), (0, 8, 4));
    assert_eq!(words[..3], [2, 8, 2]);
    let row_0 = [11, 2, 4, 4, 1, 2, 0, 0, 0, 0, 0, 0, 3, 2, 1, 0, 1, 0, 0, 2];
    let row_1 = [12, 4, 6, 6, 2, 3, 0, 4, 2, 0, 0, 0, 7, 2, 2, 0, 0, 0, 0, 3];
    assert_eq!(words[3..23], row_0);
    assert_eq!(words[23..43], row_1);
    assert!(words[43..].iter().all(|&word| word == 0));
    // The rest of the log later is the same as all of it at once.
    assert_eq!(replayed(&mut words, 16, &[]), (0, 0, 0));
    assert_eq!(replayed(&mut words, 16, &[1, 2, 3]), (0, 8, 3));
    let mut whole = fresh(&P5);
    assert_eq!(replayed(&mut whole, 24, &[1, 2, 2, 1, 1, 2, 3]), (0, 16, 7));
    assert_eq!(words, whole);
}

/// In full length it is the printed example, and row 0's second job is missed at 8. It
/// has one tick of the two it needs where row 1's first job is one unit shorter, and
/// both where row 0's first job is as well.
#[test]
fn lengths_that_tell() {
    let full: Vec<u32> = JOBS.iter().map(|(_, c)| *c).collect();
    let mut words = fresh(&P5);
    assert_eq!(replayed(&mut words, 24, &full), (0, 24, 10));
    assert_eq!(words[..3], [2, 24, 0]);
    assert_eq!(words[16..22], [6, 3, 0, 2, 1, 0]);
    assert_eq!(words[36..42], [4, 3, 0, 0, 1, 0]);
    let mut words = fresh(&P5);
    assert_eq!(replayed(&mut words, 8, &[2, 4, 2, 4]), (0, 8, 4));
    assert_eq!(words[16..22], [2, 1, 0, 0, 1, 0]);
    let mut words = fresh(&P5);
    assert_eq!(replayed(&mut words, 8, &[2, 3, 2, 4]), (0, 8, 4));
    assert_eq!(words[16..22], [2, 1, 0, 0, 1, 0]);
    let mut words = fresh(&P5);
    assert_eq!(replayed(&mut words, 8, &[1, 3, 2, 4]), (0, 8, 4));
    assert_eq!(words[16..22], [2, 1, 0, 1, 0, 0]);
}

/// Every number of ticks with every beginning of the log.
#[test]
fn where_it_stops() {
    let log: Vec<u32> = JOBS.iter().map(|(_, c)| c.div_ceil(2)).collect();
    for n in 0..=23u32 {
        for length in 0..=JOBS.len() {
            // The tick of the first job without a number: of the two at tick 0 or at
            // tick 12 either both are released or none is.
            let stop = JOBS.get(length).map_or(24, |(tick, _)| *tick);
            let done = n.min(stop);
            let used = JOBS.iter().filter(|(tick, _)| *tick < done).count();
            let due = (0, u64::from(done), used as u64);
            assert_eq!(answered(&fresh(&P5), n, &log[..length]), due);
        }
    }
}

#[test]
fn one_number_short() {
    assert_eq!(answered(&fresh(&P5), 7, &[1, 2, 2, 1]), (0, 7, 4));
    assert_eq!(answered(&fresh(&P5), 7, &[1, 2, 2]), (0, 6, 3));
    assert_eq!(answered(&fresh(&P5), 7, &[1, 2]), (0, 4, 2));
    assert_eq!(answered(&fresh(&P5), 7, &[1]), (0, 0, 0));
    assert_eq!(answered(&fresh(&P5), 7, &[]), (0, 0, 0));
    assert_eq!(answered(&fresh(&P5), 13, &[2, 4, 2, 4, 2, 2]), (0, 12, 5));
    assert_eq!(
        answered(&fresh(&P5), 13, &[2, 4, 2, 4, 2, 2, 4]),
        (0, 13, 7)
    );
}

/// "ticks without a release go on": after tick 0 there are three of them, after tick 4
/// one, after tick 8 three.
#[test]
fn ticks_without_a_release() {
    for (log, left) in [
        (&[1, 2][..], 3),
        (&[2, 4], 3),
        (&[2, 4, 2], 1),
        (&[2, 4, 2, 4, 1], 3),
    ] {
        let mut words = fresh(&P5);
        let last = JOBS[log.len() - 1].0 + 1;
        let used = log.len() as u64;
        assert_eq!(replayed(&mut words, last, log), (0, last.into(), used));
        for n in 0..=left {
            assert_eq!(answered(&words, n, &[]), (0, n.into(), 0));
        }
        for n in [left + 1, left + 2, 1_000, u32::MAX - last] {
            assert_eq!(answered(&words, n, &[]), (0, left.into(), 0));
            assert_eq!(
                answered(&words, n, &[9]).0,
                if log.len() == 5 { 0 } else { 18 }
            );
        }
        replayed(&mut words, left, &[]);
        assert_eq!(u64::from(last + left), words[1]);
    }
}

/// Rows of one period and several C: the numbers go to the rows from the top.
#[test]
fn by_row_within_a_tick() {
    let row = |id, c| [id, c, 9, 9, 1, 1, 0];
    let table = [row(5, 1), row(4, 2), row(3, 3)].concat();
    let mut words = fresh(&table);
    assert_eq!(replayed(&mut words, 9, &[1, 2, 3]), (0, 9, 3));
    assert_eq!(words[..3], [3, 9, 3]);
    for (log, place) in [([2, 1, 3], 0), ([1, 3, 2], 1), ([1, 2, 4], 2)] {
        assert_eq!(answered(&fresh(&table), 9, &log), (18, place, 0));
    }
    // After two ticks rows 0 and 1 are met with one unit each, row 2 has its work left.
    let mut words = fresh(&table);
    assert_eq!(replayed(&mut words, 2, &[1, 1, 3]), (0, 2, 3));
    assert_eq!([words[12], words[32], words[52]], [0, 0, 3]);
}
