//! "Patterns": the words of the book, and the question about one job.

use std::ops::RangeInclusive;

use peer::gen::job_question;
use peer::pattern::{self, K_MAX, PAIRS};

use super::Comparison;
use crate::course::{shown, Compared, Course, Difference};
use crate::draw::{any_word, EDGES};
use crate::ffi;

pub const ALL: &[Comparison] = &[
    Comparison::fixed("pattern_words", &[0], words),
    Comparison::drawn("pattern_words_edges", &[0, 8, 9], words_edges),
    Comparison::fixed("pattern_jobs_first", &[0], jobs_first),
    Comparison::drawn("pattern_jobs_cycles", &[0], jobs_cycles),
    Comparison::fixed("pattern_jobs_remainders", &[0], jobs_remainders),
    Comparison::fixed("pattern_jobs_products", &[0], jobs_products),
    Comparison::fixed("pattern_jobs_edges", &[0, 8, 9], jobs_edges),
    Comparison::drawn("pattern_jobs_drawn", &[0, 8, 9], jobs_drawn),
];

/// Jobs asked about for every pair: three times round the longest pattern.
const FIRST_JOBS: u32 = 200;

/// Questions drawn freely.
const DRAWN_JOBS: u32 = 6_000_000;

/// Pairs of words drawn freely.
const DRAWN_PAIRS: u32 = 1_000_000;

/// "k 1..64; m 1..k"
fn pairs() -> impl Iterator<Item = (u32, u32)> {
    (1..=K_MAX).flat_map(|k| (1..=k).map(move |m| (m, k)))
}

/// Both programs' words of a pair. The refusals are those of a question about
/// one job, which a pair outside its range has for every job alike.
fn same_word(course: &mut Course, m: u32, k: u32) -> Compared {
    let first = ffi::word(m, k);
    let peer = pattern::asked(m, k, || pattern::word(m, k));
    course.settle(peer, first == peer, || {
        let (first, peer) = (shown(first), shown(peer));
        format!("word of m {m} k {k}\nfirst {first}\npeer  {peer}")
    })
}

/// The question as the first program answers it and as the second does, which has two
/// forms of it: the rule of document 01 decides, and the one remainder of document 02,
/// 6/14, "answers as before".
fn same_job(course: &mut Course, m: u32, k: u32, job: u32) -> Compared {
    let (first, peer) = (ffi::job(m, k, job), pattern::job(m, k, job));
    let short = pattern::job_by_remainder(m, k, job);
    course.settle(peer, first == peer && short == peer, || {
        let [first, peer, short] = [first, peer, short].map(shown);
        format!("job {job} of m {m} k {k}\nfirst {first}\npeer  {peer}\nshort {short}")
    })
}

/// "one 64-bit word for each pair (m,k), 2,080 words in all"
fn words(course: &mut Course) -> Compared {
    for (m, k) in pairs() {
        same_word(course, m, k)?;
    }
    if course.cases() == PAIRS as u64 {
        return Ok(());
    }
    Err(Difference(format!("{} words", course.cases())))
}

/// Every pair of small words, of edges, and pairs drawn freely.
fn words_edges(course: &mut Course) -> Compared {
    for k in 0..=2 * K_MAX + 2 {
        for m in 0..=2 * K_MAX + 2 {
            same_word(course, m, k)?;
        }
    }
    for k in EDGES {
        for m in EDGES {
            same_word(course, m, k)?;
        }
    }
    for _ in 0..DRAWN_PAIRS {
        let (m, k) = (any_word(&mut course.rng), any_word(&mut course.rng));
        same_word(course, m, k)?;
    }
    Ok(())
}

/// The first jobs of every pair, all of them.
fn jobs_first(course: &mut Course) -> Compared {
    for (m, k) in pairs() {
        for job in 0..=FIRST_JOBS {
            same_job(course, m, k, job)?;
        }
    }
    Ok(())
}

/// Around the start of cycles, the first and the last among them, and the last
/// jobs there are, for every pair.
fn jobs_cycles(course: &mut Course) -> Compared {
    for (m, k) in pairs() {
        let last = u32::MAX / k;
        let mut cycles = vec![1, 2, 3, last / 2, last - 1, last];
        cycles.extend(EDGES.iter().filter(|&&edge| edge <= last));
        cycles.extend((0..16).map(|_| course.rng.word(0, last)));
        for start in cycles.into_iter().map(|cycle| cycle * k) {
            for step in 0..=4 {
                same_job(course, m, k, start.wrapping_add(step).wrapping_sub(2))?;
            }
        }
        for back in 0..=k {
            same_job(course, m, k, u32::MAX - back)?;
        }
    }
    Ok(())
}

/// So many jobs on each side of one, those that there are.
fn around(job: u32, reach: u32) -> RangeInclusive<u32> {
    job.saturating_sub(reach)..=job.saturating_add(reach)
}

/// "a x m mod k is 0 or greater than k - m": of the jobs around one, a whole cycle on
/// each side, those with a remainder at an end or beside one.
fn same_remainders(course: &mut Course, m: u32, k: u32, middle: u32) -> Compared {
    let telling = [0, 1, k - m, k - m + 1, k - 1].map(u64::from);
    for job in around(middle, k) {
        let rest = u64::from(job) * u64::from(m) % u64::from(k);
        if telling.contains(&rest) {
            same_job(course, m, k, job)?;
        }
    }
    Ok(())
}

/// Those remainders among the first jobs, the last, and where the number itself is as
/// long as a half of its bits, or as all but one.
fn jobs_remainders(course: &mut Course) -> Compared {
    for (m, k) in pairs() {
        for middle in [0, 1 << 16, 1 << 31, u32::MAX] {
            same_remainders(course, m, k, middle)?;
        }
    }
    Ok(())
}

/// Jobs whose product a x m is just below, at or just above a multiple of 2^31, so that
/// 32 bits, signed or not, would not hold it; and those remainders there.
fn jobs_products(course: &mut Course) -> Compared {
    for (m, k) in pairs() {
        for half in 1..2 * u64::from(m) {
            let middle = (half << 31).div_ceil(m.into()) as u32;
            for job in around(middle, 2) {
                same_job(course, m, k, job)?;
            }
            same_remainders(course, m, k, middle)?;
        }
    }
    Ok(())
}

/// Pairs at every edge, most of them out of range, with jobs at every edge.
fn jobs_edges(course: &mut Course) -> Compared {
    for k in EDGES {
        for m in EDGES {
            for job in EDGES {
                same_job(course, m, k, job)?;
            }
        }
    }
    Ok(())
}

fn jobs_drawn(course: &mut Course) -> Compared {
    for _ in 0..DRAWN_JOBS {
        let (m, k, job) = job_question(&mut course.rng);
        same_job(course, m, k, job)?;
    }
    Ok(())
}
