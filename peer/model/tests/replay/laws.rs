//! What holds between replays, and between a replay and a run.

use peer::brute::replay::{read, releases};
use peer::dispatch::{run_words, well_formed_words};
use peer::gen::{any_log, log, state};
use peer::rng::Rng;

use super::{answered, replayed};

/// With a number of C for every job a replay is the run.
#[test]
fn full_lengths_are_the_run() {
    let mut rng = Rng::new(110);
    let mut ran = 0;
    for _ in 0..3_000 {
        let mut words = state(&mut rng);
        let n = rng.word(0, 300);
        let jobs = releases(&words, n, usize::MAX);
        let full: Vec<u32> = jobs.iter().map(|job| job.c).collect();
        let mut run = words.clone();
        let answer = run_words(&mut run, n);
        let replay = replayed(&mut words, n, &full);
        match answer.refusal {
            0 => assert_eq!(replay, (0, n.into(), full.len() as u64)),
            refusal => assert_eq!(replay, (refusal, 0, 0)),
        }
        assert_eq!(words, run);
        ran += u32::from(answer.is_accepted());
    }
    assert!(ran > 1_500, "{ran}");
}

/// Numbers that are not used make no difference, whatever they are; nor does their lack.
#[test]
fn only_what_is_used() {
    let mut rng = Rng::new(111);
    let mut cut = 0;
    for _ in 0..3_000 {
        let words = state(&mut rng);
        let n = rng.word(0, 100);
        let jobs = releases(&words, n, usize::MAX);
        let log = any_log(&mut rng, &jobs);
        let mut whole = words.clone();
        let (refusal, done, used) = replayed(&mut whole, n, &log);
        if refusal != 0 {
            continue;
        }
        let mut other = log.clone();
        other[used as usize..].fill(rng.bits() as u32);
        assert_eq!(answered(&words, n, &other), (0, done, used));
        other.truncate(used as usize);
        let mut short = words.clone();
        assert_eq!(replayed(&mut short, done as u32, &other), (0, done, used));
        assert_eq!(short, whole);
        cut += u32::from(used as usize != log.len());
    }
    assert!(cut > 500, "{cut}");
}

/// A replay is its pieces, whether the ticks or the log are cut.
#[test]
fn replays_add_up() {
    let mut rng = Rng::new(112);
    let mut pieces = 0;
    for _ in 0..1_000 {
        let start = state(&mut rng);
        let n = rng.word(0, 300).min(u32::MAX - start[1] as u32);
        let jobs = releases(&start, n, usize::MAX);
        let log = log(&mut rng, &jobs);
        let mut whole = start.clone();
        assert_eq!(
            replayed(&mut whole, n, &log),
            (0, n.into(), log.len() as u64)
        );
        let (mut parts, mut left, mut rest) = (start, n, &log[..]);
        while left > 0 {
            let asked = rng.word(1, left);
            let lent = &rest[..rng.index(rest.len() + 1)];
            let (refusal, done, used) = replayed(&mut parts, asked, lent);
            assert_eq!(refusal, 0);
            left -= done as u32;
            rest = &rest[used as usize..];
            pieces += 1;
        }
        assert!(rest.is_empty());
        assert_eq!(parts, whole);
    }
    assert!(pieces > 3_000, "{pieces}");
}

/// "over any run the units of work taken from jobs plus the ticks added to idle equal
/// the ticks run"; and the state that is handed back is well formed.
#[test]
fn laws_of_the_dispatcher() {
    let mut rng = Rng::new(113);
    let mut stopped = 0;
    for _ in 0..2_000 {
        let mut words = state(&mut rng);
        let before = words.clone();
        let n = rng.word(0, 150);
        let jobs = releases(&words, n, usize::MAX);
        let log = any_log(&mut rng, &jobs);
        let (refusal, done, used) = replayed(&mut words, n, &log);
        assert!(well_formed_words(&words).is_accepted());
        if refusal != 0 {
            continue;
        }
        stopped += u32::from(done < u64::from(n));
        assert_eq!(read(&jobs, n, &log).used as u64, used);
        assert_eq!(words[1] - before[1], done);
        assert!(words[2] - before[2] <= done);
        let released = |words: &[u64]| -> u64 {
            let rows = words[3..].chunks(20);
            rows.map(|row| row[13]).sum()
        };
        assert_eq!(released(&words) - released(&before), used);
    }
    assert!(stopped > 200, "{stopped}");
}
