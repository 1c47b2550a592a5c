//! Runs against the four steps, and their laws.

use peer::answer::Answer;
use peer::dispatch::{fresh, fresh_words, from_words, run, run_watched, run_words};
use peer::dispatch::{tick, to_words, Row};
use peer::gen::{state, table};
use peer::rng::Rng;

use super::literal::{tick_literally, well_formed_literally};
use super::places::CLOCK_END;

/// The dispatcher gives, tick for tick, what the four steps give; and a refused
/// run past the clock's end hands back the state it got.
#[test]
fn runs_follow_the_four_steps() {
    let mut rng = Rng::new(13);
    let (mut ran, mut past_end) = (0, 0);
    for _ in 0..4_000 {
        let mut words = state(&mut rng);
        let n = rng.below(200);
        let mut expected = words.clone();
        let answer = run_words(&mut words, n as u32);
        if expected[1] + n > CLOCK_END {
            past_end += 1;
            assert_eq!(answer, Answer::refused(15));
        } else {
            ran += 1;
            assert_eq!(answer, Answer::accepted(0));
            for _ in 0..n {
                tick_literally(&mut expected);
            }
        }
        assert_eq!(words, expected);
        assert!(well_formed_literally(&words));
    }
    assert!(ran > 2_000 && past_end > 50, "{ran} and {past_end}");
}

#[test]
fn fresh_runs_follow_the_four_steps() {
    let mut rng = Rng::new(14);
    for _ in 0..2_000 {
        let table = table(&mut rng);
        let mut words = vec![0; 643];
        assert!(fresh_words(&table, &mut words).is_accepted());
        let mut expected = words.clone();
        let n = rng.below(600) as u32;
        assert_eq!(run_words(&mut words, n), Answer::accepted(0));
        for _ in 0..n {
            tick_literally(&mut expected);
        }
        assert_eq!(words, expected, "{table:?}");
    }
}

/// What one tick did to one row, seen from the states around it: the chosen row
/// alone lost one unit of work, and what settled is what was due.
fn one_unit(before: &Row, after: &Row, chosen: bool) {
    let start = if before.wait == 0 {
        before.c
    } else {
        before.work
    };
    let met = after.mm + after.om - before.mm - before.om;
    let missed = after.mx + after.ox - before.mx - before.ox;
    match (met, missed) {
        (0, 0) => assert_eq!(after.work, start - u32::from(chosen)),
        (1, 0) => assert!(chosen && start == 1),
        (0, 1) => assert!(start > u32::from(chosen)),
        _ => panic!("two settlings in one tick"),
    }
}

/// "Released always equals the four settled counts plus one if a job is live,
/// and over any run the units of work taken from jobs plus the ticks added to
/// idle equal the ticks run."
#[test]
fn laws_of_the_dispatcher() {
    let mut rng = Rng::new(15);
    for _ in 0..1_000 {
        let mut now = from_words(&state(&mut rng)).unwrap();
        let (start, mut units, mut ticks) = (now.clone(), 0, 0);
        for _ in 0..rng.below(100) {
            let before = now.clone();
            let mut chosen = None;
            let answer = run_watched(&mut now, 1, |row| chosen = row);
            if !answer.is_accepted() {
                assert_eq!((answer.refusal, &now), (15, &before));
                break;
            }
            ticks += 1;
            units += u32::from(chosen.is_some());
            assert_eq!(now.time, before.time + 1);
            for at in 0..now.rows as usize {
                let row = now.row[at];
                one_unit(&before.row[at], &row, chosen == Some(at));
                assert_eq!(
                    u64::from(row.released),
                    row.settled() + u64::from(row.work > 0)
                );
            }
        }
        assert_eq!(units + (now.idle - start.idle), ticks);
        assert_eq!(now.time - start.time, ticks);
    }
}

/// A run of a + b is a run of b after a run of a, and a run of 0 is none.
#[test]
fn runs_add_up() {
    let mut rng = Rng::new(16);
    let mut joined = 0;
    for _ in 0..3_000 {
        let start = from_words(&state(&mut rng)).unwrap();
        let (a, b) = (rng.below(300) as u32, rng.below(300) as u32);
        let mut whole = start.clone();
        let answer = run(&mut whole, a + b);
        let mut parts = start.clone();
        assert_eq!(run(&mut parts, 0), Answer::accepted(0));
        assert_eq!(parts, start);
        let first = run(&mut parts, a);
        let second = run(&mut parts, b);
        if answer.is_accepted() {
            joined += 1;
            assert_eq!((first, second), (answer, answer));
            assert_eq!(parts, whole);
        } else {
            assert!(first.refusal == 15 || second.refusal == 15);
            assert_eq!(whole, start);
        }
    }
    assert!(joined > 2_000);
}

/// "The clock ends at 4,294,967,295", and no sooner.
#[test]
fn the_clocks_end() {
    let mut state = fresh(&[9, 1, 3, 2, 1, 2, 0]).unwrap();
    state.time = u32::MAX - 5;
    let start = state.clone();
    for n in [6, 7, u32::MAX] {
        assert_eq!(run(&mut state, n), Answer::refused(15));
        assert_eq!(state, start);
    }
    assert_eq!(run(&mut state, 5), Answer::accepted(0));
    assert_eq!(
        (state.time, state.idle, state.row[0].released),
        (u32::MAX, 3, 2)
    );
    let end = state.clone();
    assert_eq!(tick(&mut state), Answer::refused(15));
    assert_eq!(run(&mut state, 0), Answer::accepted(0));
    assert_eq!(state, end);
    // Not well formed comes first.
    state.row[0].place = 2;
    assert_eq!(tick(&mut state), Answer::refused(14));
    let mut words = to_words(&end);
    words[1] += 1;
    assert_eq!(run_words(&mut words, 1), Answer::refused(14));
}
