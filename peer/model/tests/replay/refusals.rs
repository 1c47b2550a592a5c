//! 14, 15, then 18, and which numbers are looked at.

use super::{answered, fresh, replayed, P5};

/// C of the jobs of P5 in 13 ticks, and the ticks of their releases.
const COSTS: [u32; 7] = [2, 4, 2, 4, 2, 2, 4];
const TICKS: [u32; 7] = [0, 0, 4, 6, 8, 12, 12];

#[test]
fn a_fault_at_every_place() {
    for place in 0..COSTS.len() {
        let c = COSTS[place];
        for bad in [0, c + 1, c + 65_536, 1 << 31, u32::MAX] {
            let mut log = COSTS;
            log[place] = bad;
            let due = (18, place as u64, 0);
            assert_eq!(answered(&fresh(&P5), 13, &log), due);
            assert_eq!(answered(&fresh(&P5), 4_000, &log), due);
            // Of several the first, whatever stands after it.
            log[place..].fill(bad);
            assert_eq!(answered(&fresh(&P5), 13, &log), due);
        }
        for good in [1, c] {
            let mut log = COSTS;
            log[place] = good;
            assert_eq!(answered(&fresh(&P5), 13, &log), (0, 13, 7));
        }
    }
}

/// "that a release before the stop would use": not one past the ticks asked for, nor one
/// of the tick for which the log is too short, nor one after the jobs.
#[test]
fn a_fault_past_the_stop() {
    for place in 0..COSTS.len() {
        let mut log = COSTS;
        log[place..].fill(0);
        let before = TICKS[place];
        let used = TICKS.iter().filter(|&&tick| tick < before).count() as u64;
        let due = (0, before.into(), used);
        assert_eq!(answered(&fresh(&P5), before, &log), due);
        assert_eq!(answered(&fresh(&P5), before + 1, &log).0, 18);
    }
    // One number for the two jobs of tick 12, and for those of tick 0.
    for bad in [0, 3, u32::MAX] {
        let log = [2, 4, 2, 4, 2, bad];
        assert_eq!(answered(&fresh(&P5), 24, &log), (0, 12, 5));
        assert_eq!(answered(&fresh(&P5), 24, &[bad]), (0, 0, 0));
        assert_eq!(answered(&fresh(&P5), 24, &[bad, 1]), (18, 0, 0));
    }
    assert_eq!(answered(&fresh(&P5), 0, &[0, 0, 0]), (0, 0, 0));
}

/// The range is that of the row that uses the number.
#[test]
fn each_rows_own_range() {
    for (place, c) in COSTS.into_iter().enumerate() {
        let mut log = [1; 7];
        log[place] = 3;
        let due = if c == 2 {
            (18, place as u64, 0)
        } else {
            (0, 13, 7)
        };
        assert_eq!(answered(&fresh(&P5), 13, &log), due);
    }
}

/// The fresh state of P5 with its clock at this time.
fn at_time(time: u64) -> Vec<u64> {
    let mut words = fresh(&P5);
    words[1] = time;
    words
}

const END: u64 = 4_294_967_295;

#[test]
fn the_clocks_end() {
    let full = COSTS;
    for left in [0, 1, 5, 13] {
        let words = at_time(END - left);
        let used = TICKS.iter().filter(|&&tick| u64::from(tick) < left).count();
        let mut end = words.clone();
        let due = (0, left, used as u64);
        assert_eq!(replayed(&mut end, left as u32, &full), due);
        assert_eq!(end[1], END);
        for past in [left + 1, left + 2, END] {
            // Whether the log is enough, too short or faulty.
            for log in [&full[..], &[1], &[], &[0; 7]] {
                assert_eq!(answered(&words, past as u32, log), (15, 0, 0));
            }
        }
        assert_eq!(answered(&words, 0, &[]), (0, 0, 0));
    }
}

/// From time 0 every n is accepted, and the log stops it.
#[test]
fn the_most_ticks() {
    assert_eq!(answered(&fresh(&P5), u32::MAX, &COSTS), (0, 16, 7));
    assert_eq!(answered(&fresh(&P5), u32::MAX, &[]), (0, 0, 0));
    assert_eq!(answered(&at_time(1), u32::MAX, &[]), (15, 0, 0));
    assert_eq!(answered(&at_time(1), u32::MAX - 1, &[]), (0, 0, 0));
}

#[test]
fn no_state() {
    for n in [0, 1, 13, u32::MAX] {
        for log in [&COSTS[..], &[], &[0]] {
            // Idle past the time; the clock past its end; lengths; rows.
            let mut idle = fresh(&P5);
            idle[2] = 1;
            let mut rows = fresh(&P5);
            rows[0] = 3;
            let mut long = fresh(&P5);
            long.push(0);
            let short = fresh(&P5)[..642].to_vec();
            for words in [idle, rows, long, short, at_time(END + 1), Vec::new()] {
                assert_eq!(answered(&words, n, log), (14, 0, 0));
            }
        }
    }
}
