//! "A run of n ticks is n such ticks", refused with 14 and 15.

use peer::answer::Answer;
use peer::dispatch::CLOCK_END;
use peer::gen::{scrambled_state, state};
use peer::rng::Rng;

use super::fresh::begun;
use super::{same_call, state_shown, Both, Call, Counted};
use crate::course::{Compared, Course};
use crate::draw::{run_table, ticks};

/// States run from where they are.
const DRAWN: u32 = 40_000;

/// The most ticks of such a run, and of one in a hundred of them.
const DRAWN_TICKS: u32 = 1_200;
const FURTHER_TICKS: u32 = 100_000;

/// States moved to the clock's end.
const AT_END: u32 = 60;

/// Ticks before the clock's end, every one of which is tried.
const BACK: u32 = 24;

/// Runs in pieces, and the most ticks of each.
const PIECED: u32 = 250;
const PIECED_TICKS: u32 = 60_000;

/// Long runs, and the most ticks of each.
const LONG: u32 = 24;
const LONG_TICKS: u32 = 6_000_000;

/// States drawn from all the well-formed ones.
pub fn drawn(course: &mut Course) -> Compared {
    for _ in 0..DRAWN {
        let words = state(&mut course.rng);
        let mut both = Both::new(&mut course.rng, &words);
        for _ in 0..2 {
            let further = course.rng.once_in(100);
            let most = if further { FURTHER_TICKS } else { DRAWN_TICKS };
            let n = ticks(&mut course.rng, &both.peer, most);
            both.call(course, Call::Run(n))?;
        }
    }
    Ok(())
}

/// "The clock ends at 4,294,967,295": every tick before it with every n that
/// just fits or just does not, a run of many ticks up to it, and times past it;
/// the states well formed and not.
pub fn clock_end(course: &mut Course) -> Compared {
    for at in 0..AT_END {
        let mut words = match at % 4 {
            0 => scrambled_state(&mut course.rng),
            _ => state(&mut course.rng),
        };
        near_end(course, &mut words)?;
        far_from_end(course, &mut words)?;
        past_end(course, &mut words)?;
    }
    Ok(())
}

/// Moves the clock; words too few to have one stay as they are.
fn set_time(words: &mut [u64], time: u64) {
    if let Some(word) = words.get_mut(1) {
        *word = time;
    }
}

fn near_end(course: &mut Course, words: &mut [u64]) -> Compared {
    for back in 0..=BACK {
        set_time(words, u64::from(CLOCK_END - back));
        same_call(course, words, Call::Well)?;
        same_call(course, words, Call::Tick)?;
        let near = 0..=BACK + 3;
        let far = [1 << 16, 1 << 31, CLOCK_END - back, CLOCK_END - 1, CLOCK_END];
        for n in near.chain(far) {
            same_call(course, words, Call::Run(n))?;
        }
    }
    Ok(())
}

fn far_from_end(course: &mut Course, words: &mut [u64]) -> Compared {
    let back = course.rng.word(BACK, 20_000);
    set_time(words, u64::from(CLOCK_END - back));
    for n in [back - 1, back, back + 1, back + 2] {
        same_call(course, words, Call::Run(n))?;
    }
    Ok(())
}

fn past_end(course: &mut Course, words: &mut [u64]) -> Compared {
    let end = u64::from(CLOCK_END);
    for time in [
        end + 1,
        end + 2,
        2 * end,
        2 * end + 1,
        u64::MAX - 1,
        u64::MAX,
    ] {
        set_time(words, time);
        same_call(course, words, Call::Well)?;
        same_call(course, words, Call::Tick)?;
        for n in [0, 1, 2, CLOCK_END - 1, CLOCK_END] {
            same_call(course, words, Call::Run(n))?;
        }
    }
    Ok(())
}

/// A part of what is left of a run: none of it, one tick, any part, all of it.
fn piece(rng: &mut Rng, left: u32) -> u32 {
    match rng.below(8) {
        0 => 0,
        1 => 1,
        2 => left,
        3 => rng.word(1, left),
        _ => rng.word(1, left.div_ceil(6)),
    }
}

/// One run at once, the same run in pieces, and the same state after both.
pub fn pieces(course: &mut Course) -> Compared {
    for _ in 0..PIECED {
        let table = run_table(&mut course.rng);
        let mut whole = begun(course, &table)?;
        let lead = course.rng.word(0, 1_000);
        whole.call(course, Call::Run(lead))?;
        let start = whole.peer.clone();
        let mut parts = Both::new(&mut course.rng, &start);
        let total = course.rng.word(1, PIECED_TICKS);
        whole.call(course, Call::Run(total))?;
        let mut left = total;
        while left > 0 {
            let n = piece(&mut course.rng, left);
            parts.call(course, Call::Run(n))?;
            left -= n;
        }
        let same = whole.first.words() == parts.first.words();
        course.settle(Answer::accepted(0), same, || {
            let start = state_shown(&start);
            format!("{total} ticks at once and in pieces, from {start}")
        })?;
    }
    Ok(())
}

/// Runs of up to some millions of ticks from fresh.
pub fn long(course: &mut Course) -> Compared {
    let mut counted = Counted::default();
    for _ in 0..LONG {
        let table = run_table(&mut course.rng);
        let mut both = begun(course, &table)?;
        let n = course.rng.word(1, LONG_TICKS);
        both.call(course, Call::Run(n))?;
        counted.add(&both.peer);
    }
    counted.reached()
}
