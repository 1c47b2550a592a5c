//! Drawn states and logs, the three replays laid beside each other.

use peer::brute::replay::{read, releases};
use peer::gen::{any_log, damaged_states, log, no_length, scrambled_state, state, table};
use peer::rng::Rng;

use super::{answered, fresh, replayed};

/// What the answers were, by their refusal numbers, and the replays that a log stopped.
#[derive(Default)]
struct Seen {
    answers: [u32; 19],
    stopped: u32,
}

impl Seen {
    fn add(&mut self, (refusal, value, _): (u64, u64, u64), n: u32) {
        self.answers[refusal as usize] += 1;
        self.stopped += u32::from(refusal == 0 && value < u64::from(n));
    }
}

#[test]
fn on_drawn_states() {
    let mut rng = Rng::new(100);
    let mut seen = Seen::default();
    for _ in 0..8_000 {
        let mut words = state(&mut rng);
        for _ in 0..2 {
            let n = rng.word(0, 120);
            let jobs = releases(&words, n, usize::MAX);
            let log = any_log(&mut rng, &jobs);
            seen.add(replayed(&mut words, n, &log), n);
        }
    }
    let Seen { answers, stopped } = seen;
    assert!(answers[0] > 4_000 && answers[15] > 200, "{answers:?}");
    assert!(answers[18] > 1_500 && stopped > 1_500, "{stopped}");
}

#[test]
fn from_fresh() {
    let mut rng = Rng::new(101);
    let mut seen = Seen::default();
    for _ in 0..3_000 {
        let mut words = fresh(&table(&mut rng));
        for _ in 0..rng.below(5) {
            let n = rng.word(0, 300);
            let jobs = releases(&words, n, usize::MAX);
            let log = any_log(&mut rng, &jobs);
            seen.add(replayed(&mut words, n, &log), n);
        }
    }
    let Seen { answers, stopped } = seen;
    assert!(answers[0] > 3_000 && answers[18] > 800, "{answers:?}");
    assert!(stopped > 600, "{stopped}");
}

/// A number out of range at every place of a log: it is told exactly where a release
/// before the stop would use it.
#[test]
fn a_fault_at_every_place() {
    let mut rng = Rng::new(102);
    let (mut told, mut passed) = (0, 0);
    for _ in 0..400 {
        let words = state(&mut rng);
        let n = rng.word(0, 60);
        let jobs = releases(&words, n, usize::MAX);
        let mut numbers = log(&mut rng, &jobs);
        numbers.truncate(jobs.len() - rng.index(3).min(jobs.len()));
        let sound = answered(&words, n, &numbers);
        let used = read(&jobs, n, &numbers).used;
        for place in 0..numbers.len() {
            let mut faulty = numbers.clone();
            faulty[place] = no_length(&mut rng, jobs[place].c);
            let due = match sound {
                (0, ..) if place < used => (18, place as u64, 0),
                other => other,
            };
            assert_eq!(answered(&words, n, &faulty), due);
            told += u32::from(due.0 == 18);
            passed += u32::from(due.0 == 0);
        }
    }
    assert!(told > 5_000 && passed > 100, "{told} and {passed}");
}

#[test]
fn on_ill_formed_states() {
    let mut rng = Rng::new(103);
    let mut seen = Seen::default();
    for _ in 0..40 {
        let good = state(&mut rng);
        for damaged in damaged_states(&mut rng, &good) {
            let n = rng.word(0, 6);
            let jobs = releases(&good, n, 20);
            let log = any_log(&mut rng, &jobs);
            seen.add(answered(&damaged.words, n, &log), n);
        }
    }
    for _ in 0..20_000 {
        let words = scrambled_state(&mut rng);
        let n = rng.word(0, 6);
        let jobs = releases(&words, n, 20);
        let log = any_log(&mut rng, &jobs);
        seen.add(answered(&words, n, &log), n);
    }
    let answers = seen.answers;
    assert!(answers[14] > 20_000 && answers[18] > 200, "{answers:?}");
}
