//! Which jobs of a row are mandatory, by the sentences and job by job: no book, no
//! word of bits and no formula for a number of jobs.

use crate::pattern::{is_pair, mandatory, Pattern, EVEN, RED};

/// "the first m of every k jobs are mandatory" (document 02, 3/14): so many jobs at
/// the start of the k among which the job is, and it is one of them. An even pattern
/// has the rule of document 01.
pub fn is_mandatory(pattern: Pattern, job: u32) -> bool {
    let Pattern { m, k, p } = pattern;
    match p {
        EVEN => mandatory(m, k, job),
        RED if is_pair(m, k) => {
            let start = job - job % k;
            let mut first_m = (0..m).filter_map(|after| start.checked_add(after));
            first_m.any(|one| one == job)
        }
        _ => false,
    }
}

/// The mandatory ones among the first q jobs, counted.
pub fn count(pattern: Pattern, q: u32) -> u64 {
    (0..q).filter(|&job| is_mandatory(pattern, job)).count() as u64
}
