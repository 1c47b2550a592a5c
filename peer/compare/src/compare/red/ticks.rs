//! Every deeply-red pattern run through job by job, and mixed tables tick by tick, each
//! released job's kind held against the literal rule of its row's own pattern.

use peer::answer::Answer;
use peer::brute::pattern::{count, is_mandatory};
use peer::dispatch::{from_words, State};
use peer::gen::{draw_patterns, tiny_table};
use peer::pattern::{Pattern, EVEN, K_MAX, RED};

use super::super::dispatch::{begun, Call};
use crate::course::{Compared, Course, Difference};
use crate::draw::run_table;

/// Mixed tables, and the ticks of each.
const TABLES: u32 = 1_200;
const TICKS: u32 = 250;

/// The state that the words are, which the first program has just handed back.
fn state_of(words: &[u64]) -> Result<State, Difference> {
    from_words(words).ok_or_else(|| Difference("a word too large for its field".to_string()))
}

/// Every pair as a row with a job in each tick that takes just that tick, and beside it
/// the same pair with the other pattern: after q ticks each has settled as many
/// mandatory jobs as its first q jobs hold, and its place is that of the next job.
pub fn patterns(course: &mut Course) -> Compared {
    for (m, k) in (1..=K_MAX).flat_map(|k| (1..=k).map(move |m| (m, k))) {
        let [id, other] = [course.rng.word(1, 9), course.rng.word(10, 99)];
        let table = [[id, 1, 1, 1, m, k, RED], [other, 1, 1, 1, m, k, EVEN]].concat();
        let mut both = begun(course, &table)?;
        for q in 1..=2 * k + 1 {
            both.call(course, Call::Tick)?;
            counted(&state_of(both.first.words())?, q)?;
        }
        let far = 64 * k + course.rng.word(0, k);
        both.call(course, Call::Run(far))?;
        counted(&state_of(both.first.words())?, 2 * k + 1 + far)?;
    }
    Ok(())
}

/// Both rows by their own count; a mandatory job of row 0 is always met.
fn counted(state: &State, q: u32) -> Compared {
    for (row, p) in state.row.iter().zip([RED, EVEN]) {
        let (m, k) = (row.m, row.k);
        let due = count(Pattern { m, k, p }, q) as u32;
        let kept = row.mm + row.mx == due && row.om + row.ox == q - due;
        if !kept || row.place != q % k || row.p != p || p == RED && row.mx > 0 {
            let text = format!("after {q} jobs, mandatory ones due {due}: {row:?}");
            return Err(Difference(text));
        }
    }
    Ok(())
}

/// Mixed tables from fresh: a row's job after a release is of the kind that the
/// literal rule gives to its number. Both kinds must have come where the other pattern
/// has the other kind.
pub fn mixed(course: &mut Course) -> Compared {
    let mut apart = [0u32; 2];
    for round in 0..TABLES {
        let mut table = match round % 3 {
            0 => tiny_table(&mut course.rng),
            _ => run_table(&mut course.rng),
        };
        if round % 2 == 0 {
            draw_patterns(&mut course.rng, &mut table);
        }
        let mut both = begun(course, &table)?;
        let mut before = state_of(both.first.words())?;
        for _ in 0..TICKS {
            both.tick(course)?;
            let after = state_of(both.first.words())?;
            released(course, [&before, &after], &mut apart)?;
            before = after;
        }
    }
    if apart.contains(&0) {
        let text = format!("optional and mandatory where the other is not: {apart:?}");
        return Err(Difference(text));
    }
    Ok(())
}

/// The kind of each job that the tick released: that of the live job, or of the count
/// that the tick settled it under.
fn released(course: &mut Course, [before, after]: [&State; 2], apart: &mut [u32; 2]) -> Compared {
    let rows = before.row.iter().zip(&after.row).enumerate();
    for (at, (was, now)) in rows.take(after.rows as usize) {
        if was.wait != 0 {
            continue;
        }
        let (m, k, job) = (was.m, was.k, was.released);
        let kind = match now.work {
            0 => now.mm + now.mx > was.mm + was.mx,
            _ => now.kind == 1,
        };
        let by = |p| is_mandatory(Pattern { m, k, p }, job);
        if by(EVEN) != by(RED) {
            apart[usize::from(kind)] += 1;
        }
        let place = now.place == (job + 1) % k && now.released == job + 1;
        course.settle(Answer::accepted(0), place && kind == by(was.p), || {
            format!("row {at}, job {job}, mandatory {kind}: {was:?} {now:?}")
        })?;
    }
    Ok(())
}
