//! Logs of measured job lengths, of as many jobs as are released and of others, their
//! numbers in their range and out of it.

use super::tables::end_or_any;
use crate::brute::replay::Release;
use crate::rng::Rng;

/// A number for each of the jobs, "each 1 to that row's C": full lengths, the shortest,
/// or any; now and then all of a log are alike in this.
pub fn log(rng: &mut Rng, jobs: &[Release]) -> Vec<u32> {
    let kind = rng.below(6);
    let length = |job: &Release| match kind {
        0 => job.c,
        1 => 1,
        2 => rng.word(1, job.c),
        3 => rng.word(job.c.div_ceil(2), job.c),
        _ => end_or_any(rng, 1, job.c.max(1)),
    };
    jobs.iter().map(length).collect()
}

/// A number out of the range of a job whose row has this C: the ones next to it, the
/// ends of 16, 31 and 32 bits, numbers whose low bits alone are in it, any above it.
pub fn no_length(rng: &mut Rng, c: u32) -> u32 {
    let within = rng.word(1, c);
    let next = c.saturating_add(1);
    match rng.below(12) {
        0..=2 => 0,
        3..=5 => next,
        6 => u32::MAX,
        7 => within.saturating_add(65_536),
        8 => within | 1 << 31,
        9 => c.saturating_add(within),
        10 => 65_536,
        _ => rng.word(next, u32::MAX),
    }
}

/// A log for these jobs, or for fewer of them, or with numbers after theirs that no job
/// uses, sound or rubbish. In one log of three a number is out of its range, and now and
/// then several are.
pub fn any_log(rng: &mut Rng, jobs: &[Release]) -> Vec<u32> {
    let mut numbers = log(rng, jobs);
    match rng.below(10) {
        0 => numbers.clear(),
        1 | 2 => numbers.truncate(jobs.len().saturating_sub(1)),
        3 | 4 => numbers.truncate(rng.index(jobs.len() + 1)),
        5 | 6 => {
            let rubbish = rng.once_in(2);
            let after = (0..=rng.index(4)).map(|_| match rubbish {
                true => rng.choose(&[0, u32::MAX, 65_536]).unwrap_or(0),
                false => 1,
            });
            numbers.extend(after);
        }
        _ => (),
    }
    if rng.once_in(3) {
        let faults = if rng.once_in(3) { 3 } else { 1 };
        for _ in 0..faults {
            lay_fault(rng, &mut numbers, jobs);
        }
    }
    numbers
}

/// A number out of range at any place of the log, more often at its ends than not.
fn lay_fault(rng: &mut Rng, numbers: &mut [u32], jobs: &[Release]) {
    let last = numbers.len().saturating_sub(1);
    let at = end_or_any(rng, 0, last as u32) as usize;
    let c = jobs.get(at).map_or(1, |job| job.c);
    if let Some(number) = numbers.get_mut(at) {
        *number = no_length(rng, c);
    }
}
