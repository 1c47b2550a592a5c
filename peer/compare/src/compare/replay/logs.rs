//! Logs of every length around what a replay uses, their numbers in range and out of it.

use peer::brute;
use peer::brute::replay::releases;
use peer::dispatch::STATE_WORDS;
use peer::gen::{any_log, log, scrambled_state, state};
use peer::rng::Rng;

use super::super::dispatch::Both;
use super::{due_replay, enough, is_due, replayed_shown, room, same_on, same_replay, start};
use crate::course::{Compared, Course, Difference};
use crate::draw::{state_room_of, ticks};
use crate::ffi;

/// States, and the most ticks of a replay that no log stops.
const DRAWN: u32 = 25_000;
const DRAWN_TICKS: u32 = 600;

/// States for every length of a log, and the most numbers of one.
const LENGTHS: u32 = 1_200;
const NUMBERS: usize = 60;

/// States for logs without a number, and for the literal rule.
const EMPTY: u32 = 4_000;
const RULE: u32 = 15_000;
const RULE_TICKS: u32 = 60;

/// Ticks for a replay on these words: as for a run, and now and then all that the clock
/// has room for, however many, since the log stops it.
fn any_ticks(rng: &mut Rng, words: &[u64], most: u32) -> u32 {
    match rng.below(8) {
        0 => room(words).saturating_sub(rng.word(0, 1)),
        _ => ticks(rng, words, most),
    }
}

/// States drawn from all the well-formed ones, each replayed twice.
pub fn drawn(course: &mut Course) -> Compared {
    for _ in 0..DRAWN {
        let words = start(&mut course.rng);
        let mut both = Both::new(&mut course.rng, &words);
        for _ in 0..2 {
            let n = any_ticks(&mut course.rng, &both.peer, DRAWN_TICKS);
            let jobs = releases(&both.peer, n.min(DRAWN_TICKS), usize::MAX);
            let log = any_log(&mut course.rng, &jobs);
            same_on(course, &mut both, n, &log, &[])?;
        }
    }
    Ok(())
}

/// Every beginning of a log, with the rest of it right behind: "It stops before the first
/// tick that releases more jobs than the log has left". There must be logs that end
/// between two jobs of one tick.
pub fn lengths(course: &mut Course) -> Compared {
    let mut between = 0;
    for _ in 0..LENGTHS {
        let words = start(&mut course.rng);
        let n = course.rng.word(0, DRAWN_TICKS).min(room(&words));
        let jobs = releases(&words, n, NUMBERS);
        let numbers = log(&mut course.rng, &jobs);
        for length in 0..=numbers.len() {
            let (lent, after) = numbers.split_at(length);
            let stop = jobs.get(length).map(|job| job.tick);
            let done = stop.unwrap_or(n);
            let used = jobs.iter().filter(|job| job.tick < done).count();
            between += u32::from(used < length);
            let mut both = Both::new(&mut course.rng, &words);
            let replayed = same_on(course, &mut both, n, lent, after)?;
            // A list that was cut says nothing of what comes after its last job.
            if stop.is_some() || jobs.len() <= NUMBERS {
                is_due(replayed, (0, done.into(), used as u64), || {
                    format!("{n} ticks, log {lent:?}, on {words:?}")
                })?;
            }
        }
    }
    enough(between, 4_000, "logs that end between two jobs of one tick")
}

/// No numbers at all, with sound ones behind and with no memory behind; no ticks at all,
/// with any log. There must be ticks done without a number.
pub fn empty(course: &mut Course) -> Compared {
    let mut done = 0;
    for _ in 0..EMPTY {
        let words = start(&mut course.rng);
        let jobs = releases(&words, 40, NUMBERS);
        let numbers = log(&mut course.rng, &jobs);
        let asked = [0, 1, 2, course.rng.word(3, 400), room(&words), u32::MAX];
        for n in asked {
            let mut both = Both::new(&mut course.rng, &words);
            let replayed = same_on(course, &mut both, n, &[], &numbers)?;
            let nothing = replayed.answer.refusal == 0 && replayed.answer.value > 0;
            done += u32::from(nothing);
        }
        no_memory(course, &words, asked)?;
        let log = any_log(&mut course.rng, &jobs);
        due_replay(course, &words, 0, &log, (0, 0, 0))?;
        let rubbish = state_room_of(&mut course.rng, 9).into_iter();
        let rubbish: Vec<u32> = rubbish.map(|word| word as u32).collect();
        due_replay(course, &words, 0, &rubbish, (0, 0, 0))?;
    }
    enough(done, EMPTY / 2, "replays of some ticks without a number")
}

/// A slice without any memory behind it, as a Rust caller may lend.
fn no_memory(course: &mut Course, words: &[u64], asked: [u32; 6]) -> Compared {
    for n in asked {
        let (peer, both) = same_replay(course, words, n, &[])?;
        let mut state = words.to_vec();
        let first = ffi::replay(&mut state, n, &[]);
        let same = first == peer && state == both.peer;
        course.settle(peer.answer, same, || {
            let (first, peer) = (replayed_shown(first), replayed_shown(peer));
            format!("{n} ticks without a log: {first} {peer}, on {words:?}")
        })?;
    }
    Ok(())
}

/// The literal rule, which lists the releases first: against both programs.
pub fn rule(course: &mut Course) -> Compared {
    for turn in 0..RULE {
        let words = match turn % 4 {
            0 => scrambled_state(&mut course.rng),
            1 => state(&mut course.rng),
            _ => start(&mut course.rng),
        };
        let n = ticks(&mut course.rng, &words, RULE_TICKS);
        let listed = n.min(RULE_TICKS);
        let jobs = match words.len() {
            STATE_WORDS => releases(&words, listed, usize::MAX),
            _ => Vec::new(),
        };
        let log = any_log(&mut course.rng, &jobs);
        let (replayed, both) = same_replay(course, &words, n, &log)?;
        let mut by_rule = words.clone();
        let due = brute::replay::replay(&mut by_rule, n, &log);
        if due != replayed || by_rule != both.first.words() {
            let (due, given) = (replayed_shown(due), replayed_shown(replayed));
            let text = format!("both programs: {given}, the rule: {due}, {n} ticks, {log:?}");
            return Err(Difference(format!("{text}, on {words:?}")));
        }
    }
    Ok(())
}
