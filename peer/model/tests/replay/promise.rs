//! "For an admitted table demand 3 holds here too, response time as an upper bound", and
//! the checker notices when it does not.

use peer::answer::Answer;
use peer::brute::replay::{releases, Release};
use peer::dispatch::{fresh, replay_watched};
use peer::gen::{loaded_table, log, tiny_table};
use peer::promise::{judge_replay, Kept, Trace};
use peer::rng::Rng;
use peer::table::Table;
use peer::verdict::verdict;

use super::P5;

/// The replay of so many ticks from fresh with these lengths, and the lengths by row.
fn traced(words: &[u32], ticks: u32, jobs: &[Release], log: &[u32]) -> (Trace, Vec<Vec<u32>>) {
    let mut state = fresh(words).unwrap();
    let mut chosen = Vec::new();
    let replayed = replay_watched(&mut state, ticks, log, |row| chosen.push(row));
    assert_eq!(replayed.answer, Answer::accepted(ticks.into()));
    let mut lengths = vec![Vec::new(); words.len() / 7];
    for (job, length) in jobs.iter().zip(log) {
        lengths[job.row].push(*length);
    }
    (Trace { chosen, state }, lengths)
}

/// What the verdict says, if it admits the table.
fn admitted(words: &[u32]) -> Option<[u32; 32]> {
    let mut responses = [0; 32];
    let answer = verdict(words, &mut responses);
    answer.is_accepted().then_some(responses)
}

fn jobs_of(words: &[u32], ticks: u32) -> Vec<Release> {
    releases(&super::fresh(words), ticks, usize::MAX)
}

fn kept_on(draw: fn(&mut Rng) -> Vec<u32>, seed: u64, ticks: u32) -> (u32, Kept) {
    let mut rng = Rng::new(seed);
    let (mut tables, mut all) = (0, Kept::default());
    for _ in 0..2_000 {
        let words = draw(&mut rng);
        let Some(responses) = admitted(&words) else {
            continue;
        };
        let jobs = jobs_of(&words, ticks);
        let log = log(&mut rng, &jobs);
        let (trace, lengths) = traced(&words, ticks, &jobs, &log);
        let table = Table::of(&words).unwrap();
        let kept = judge_replay(&table, &trace, &lengths, &responses)
            .unwrap_or_else(|fault| panic!("{fault}: {words:?} {log:?}"));
        tables += 1;
        all.mandatory_jobs += kept.mandatory_jobs;
        all.optional_jobs += kept.optional_jobs;
        all.windows += kept.windows;
    }
    (tables, all)
}

#[test]
fn kept_on_drawn_tables() {
    for (draw, seed, ticks) in [
        (loaded_table as fn(&mut Rng) -> Vec<u32>, 120, 2_000),
        (tiny_table, 121, 600),
    ] {
        let (tables, kept) = kept_on(draw, seed, ticks);
        assert!(tables > 50, "{tables}");
        let least = u64::from(tables);
        assert!(kept.mandatory_jobs > least && kept.optional_jobs > least);
        assert!(kept.windows > least);
    }
}

/// With full lengths job 0 takes exactly its response time: one tick less is noticed, and
/// so is a length that is not the job's.
#[test]
fn a_lower_bound_is_noticed() {
    let mut rng = Rng::new(122);
    let mut noticed = 0;
    for _ in 0..600 {
        let words = loaded_table(&mut rng);
        let Some(responses) = admitted(&words) else {
            continue;
        };
        let jobs = jobs_of(&words, 3_000);
        let full: Vec<u32> = jobs.iter().map(|job| job.c).collect();
        let (trace, lengths) = traced(&words, 3_000, &jobs, &full);
        let table = Table::of(&words).unwrap();
        assert!(judge_replay(&table, &trace, &lengths, &responses).is_ok());
        for row in 0..table.rows().len() {
            let mut lower = responses;
            lower[row] -= 1;
            assert!(judge_replay(&table, &trace, &lengths, &lower).is_err());
            let mut higher = responses;
            higher[row] += 1;
            assert!(judge_replay(&table, &trace, &lengths, &higher).is_ok());
            for by in [1, u32::MAX] {
                let mut other = lengths.clone();
                other[row][0] = other[row][0].wrapping_add(by);
                assert!(judge_replay(&table, &trace, &other, &responses).is_err());
            }
            noticed += 1;
        }
    }
    assert!(noticed > 400, "{noticed}");
}

/// A trace that is not the dispatcher's, a job without a length, and one too many.
#[test]
fn altered_traces_are_noticed() {
    let table = Table::of(&P5).unwrap();
    let responses = admitted(&P5).unwrap();
    let jobs = jobs_of(&P5, 48);
    let log: Vec<u32> = jobs.iter().map(|job| job.c).collect();
    let whole = || traced(&P5, 48, &jobs, &log);
    let (trace, lengths) = whole();
    assert!(judge_replay(&table, &trace, &lengths, &responses).is_ok());
    for tick in 0..48 {
        let (mut altered, lengths) = whole();
        altered.chosen[tick] = match altered.chosen[tick] {
            Some(row) => Some(1 - row),
            None => Some(0),
        };
        assert!(judge_replay(&table, &altered, &lengths, &responses).is_err());
        let (mut idled, lengths) = whole();
        idled.chosen[tick] = None;
        assert!(judge_replay(&table, &idled, &lengths, &responses).is_err());
    }
    for row in 0..2 {
        let (trace, mut lengths) = whole();
        lengths[row].pop();
        assert!(judge_replay(&table, &trace, &lengths, &responses).is_err());
        lengths[row].extend([1, 1]);
        assert!(judge_replay(&table, &trace, &lengths, &responses).is_err());
    }
}
