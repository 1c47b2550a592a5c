//! Document 02, 5/14: replays with measured job lengths. Each time the three numbers of
//! the answer, every word of the state and the log as it was lent are compared.

mod faults;
mod logs;
mod million;
mod pieces;
mod promise;
mod states;
mod ticks;

use peer::answer::Answer;
use peer::brute::replay::Release;
use peer::dispatch::{fresh_words, replay_words, run_words, Replayed, CLOCK_END, STATE_WORDS};
use peer::gen::state;
use peer::rng::Rng;

use super::dispatch::{state_shown, Both};
use super::Comparison;
use crate::course::{shown, Compared, Course, Difference};
use crate::draw::run_table;
use crate::ffi;
use crate::lent::Lent;

pub const ALL: &[Comparison] = &[
    Comparison::drawn("replay_logs_drawn", &[0, 15, 18], logs::drawn),
    Comparison::drawn("replay_logs_lengths", &[0], logs::lengths),
    Comparison::drawn("replay_logs_empty", &[0, 15], logs::empty),
    Comparison::drawn("replay_logs_rule", &[0, 14, 15, 18], logs::rule),
    Comparison::drawn("replay_faults_places", &[0, 18], faults::places),
    Comparison::drawn("replay_faults_past_stop", &[0], faults::past_stop),
    Comparison::drawn("replay_faults_order", &[14, 15, 18], faults::order),
    Comparison::drawn("replay_states_fields", &[0, 14, 15, 18], states::fields),
    Comparison::drawn("replay_states_bits", &[0, 14, 18], states::bits),
    Comparison::drawn(
        "replay_states_scrambled",
        &[0, 14, 15, 18],
        states::scrambled,
    ),
    Comparison::drawn("replay_states_lengths", &[0, 14, 18], states::lengths),
    Comparison::drawn(
        "replay_states_clock_end",
        &[0, 14, 15, 18],
        states::clock_end,
    ),
    Comparison::drawn("replay_ticks_fresh", &[0], ticks::from_fresh),
    Comparison::drawn("replay_ticks_drawn", &[0, 15], ticks::drawn),
    Comparison::drawn("replay_full_lengths", &[0, 15], pieces::full_lengths),
    Comparison::drawn("replay_pieces", &[0], pieces::pieces),
    Comparison::drawn("replay_million", &[0, 18], million::all),
    Comparison::drawn("replay_promise_cycles", &[0], promise::cycles),
    Comparison::drawn("replay_promise_drawn", &[0], promise::drawn),
    Comparison::drawn("replay_promise_limit", &[0], promise::limit),
];

/// One replay on each side: the answers, the states handed back and the log. The
/// numbers of `after` stand right behind the log, for a callee that reads on.
fn same_on(
    course: &mut Course,
    both: &mut Both,
    n: u32,
    log: &[u32],
    after: &[u32],
) -> Result<Replayed, Difference> {
    let before = both.peer.clone();
    let mut lent = Lent::followed(&mut course.rng, log, after);
    let first = ffi::replay_lent(&mut both.first, n, &mut lent);
    let peer = replay_words(&mut both.peer, n, log);
    let same = first == peer && both.alike() && lent.holds(log);
    course.settle(peer.answer, same, || {
        let (first, peer, apart) = (replayed_shown(first), replayed_shown(peer), both.apart());
        let (before, beside) = (state_shown(&before), lent.altered_beside());
        let (log, altered) = (log_shown(log), lent.words() != log);
        format!(
            "replay of {n} ticks, {log}, on {before}\nfirst {first}\npeer  {peer}\n{apart}\n\
             log altered {altered}, beside it {beside:?}"
        )
    })?;
    Ok(peer)
}

/// A replay on the words as they are; gives the answer and the first program's state.
fn same_replay(
    course: &mut Course,
    words: &[u64],
    n: u32,
    log: &[u32],
) -> Result<(Replayed, Both), Difference> {
    let mut both = Both::new(&mut course.rng, words);
    let replayed = same_on(course, &mut both, n, log, &[])?;
    Ok((replayed, both))
}

/// Refusal, value, used.
type Due = (u64, u64, u64);

/// The same where the rules leave one answer, which is known beforehand.
fn due_replay(course: &mut Course, words: &[u64], n: u32, log: &[u32], due: Due) -> Compared {
    let (replayed, _) = same_replay(course, words, n, log)?;
    is_due(replayed, due, || {
        let (log, words) = (log_shown(log), state_shown(words));
        format!("{n} ticks, {log}, on {words}")
    })
}

/// An answer that both programs gave, against the one that is known beforehand.
fn is_due(replayed: Replayed, due: Due, case: impl FnOnce() -> String) -> Compared {
    let Answer { refusal, value } = replayed.answer;
    let given = (refusal, value, replayed.used);
    if given == due {
        return Ok(());
    }
    let case = case();
    Err(Difference(format!(
        "both programs: {given:?}, due {due:?}, {case}"
    )))
}

/// A comparison that met too few of what it is about says little.
fn enough(met: u32, least: u32, what: &str) -> Compared {
    match met >= least {
        true => Ok(()),
        false => Err(Difference(format!("{met} {what}, due at least {least}"))),
    }
}

fn replayed_shown(replayed: Replayed) -> String {
    let Replayed { answer, used } = replayed;
    format!("{} used {used}", shown(answer))
}

/// A log as a difference shows it, its middle left out where it is long.
fn log_shown(log: &[u32]) -> String {
    const SHOWN: usize = 300;
    let length = log.len();
    match length > 2 * SHOWN {
        true => {
            let (first, last) = (&log[..SHOWN], &log[length - SHOWN..]);
            format!("log of {length} numbers {first:?} .. {last:?}")
        }
        false => format!("log of {length} numbers {log:?}"),
    }
}

/// The ticks that the clock has room for after the state's time.
fn room(words: &[u64]) -> u32 {
    u64::from(CLOCK_END).saturating_sub(words[1]) as u32
}

/// C of each of the jobs.
fn full(jobs: &[Release]) -> Vec<u32> {
    jobs.iter().map(|job| job.c).collect()
}

/// A state to begin in: fresh, in the midst of a run, or any well-formed one, which
/// most often no run reaches.
fn start(rng: &mut Rng) -> Vec<u64> {
    if rng.once_in(3) {
        return state(rng);
    }
    let mut words = vec![0; STATE_WORDS];
    fresh_words(&run_table(rng), &mut words);
    if rng.once_in(2) {
        let n = rng.word(1, 300);
        run_words(&mut words, n);
    }
    words
}

/// Two states of the first program that must be the same.
fn same_words(course: &mut Course, one: &Both, other: &Both, what: &str) -> Compared {
    let same = one.first.words() == other.first.words();
    course.settle(Answer::accepted(0), same, || {
        let (one, other) = (
            state_shown(one.first.words()),
            state_shown(other.first.words()),
        );
        format!("{what}: {one}\nand {other}")
    })
}
