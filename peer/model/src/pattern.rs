//! "Patterns": which jobs are mandatory, by the even rule with its book and its short
//! form, and by the deeply-red one.

use crate::answer::{refusal, Answer};

/// "k 1..64"
pub const K_MAX: u32 = 64;

/// "one 64-bit word for each pair (m,k), 2,080 words in all"
pub const PAIRS: usize = 2080;

/// p, "0 for even, 1 for deeply-red" (document 02, 3/14).
pub const EVEN: u32 = 0;
pub const RED: u32 = 1;

/// "k 1..64; m 1..k": the pairs that have a pattern.
pub const fn is_pair(m: u32, k: u32) -> bool {
    1 <= k && k <= K_MAX && 1 <= m && m <= k
}

/// "Job a is mandatory when a = floor(ceil(a x m / k) x k / m), otherwise
/// optional."
///
/// A pair outside its range has no pattern; none of its jobs is mandatory.
pub const fn mandatory(m: u32, k: u32, a: u32) -> bool {
    if !is_pair(m, k) {
        return false;
    }
    // With m and k at most 64 every product stays far below 2^64.
    let (m, k, a) = (m as u64, k as u64, a as u64);
    a == (a * m).div_ceil(k) * k / m
}

/// "For even patterns, use one remainder: job a is mandatory when a x m mod k is 0 or
/// greater than k - m" (document 02, 6/14).
///
/// [`mandatory`] stays the rule, and this gives what it gives. A pair outside its range
/// has no mandatory jobs here either.
pub const fn mandatory_by_remainder(m: u32, k: u32, a: u32) -> bool {
    if !is_pair(m, k) {
        return false;
    }
    // The product of 32 bits and m, which is at most 64, needs more than 32 of them.
    let (m, k, a) = (m as u64, k as u64, a as u64);
    let rest = a * m % k;
    // Both are looked at, so that there is no branch to guess: it is quicker so.
    (rest == 0) | (rest > k - m)
}

/// "the first q jobs hold exactly ceil(q x m / k) mandatory ones"
///
/// A pair outside its range has no mandatory jobs: 0.
pub const fn count(m: u32, k: u32, q: u32) -> u64 {
    if !is_pair(m, k) {
        return 0;
    }
    (q as u64 * m as u64).div_ceil(k as u64)
}

/// "Bit a, for a below k, is set exactly when job a is mandatory; higher bits
/// are clear." Worked out afresh from the rule; 0 for a pair outside its range,
/// which no pair inside it has, job 0 being always mandatory.
pub const fn word(m: u32, k: u32) -> u64 {
    if !is_pair(m, k) {
        return 0;
    }
    let mut bits = 0;
    let mut a = 0;
    while a < k {
        if mandatory(m, k, a) {
            bits |= 1 << a;
        }
        a += 1;
    }
    bits
}

/// "the pair's word at place k(k-1)/2 + m - 1"
pub const fn place(m: u32, k: u32) -> Option<usize> {
    if !is_pair(m, k) {
        return None;
    }
    Some((k * (k - 1) / 2 + m - 1) as usize)
}

/// The book, written once when the program is built, so that a run looks its
/// words up instead of working them out.
static BOOK: [u64; PAIRS] = written();

const fn written() -> [u64; PAIRS] {
    let mut words = [0; PAIRS];
    let mut k = 1;
    while k <= K_MAX {
        let mut m = 1;
        while m <= k {
            if let Some(at) = place(m, k) {
                words[at] = word(m, k);
            }
            m += 1;
        }
        k += 1;
    }
    words
}

/// "The pattern book holds one 64-bit word for each pair (m,k)".
pub fn book() -> Vec<u64> {
    BOOK.to_vec()
}

/// The pair's word out of the book; 0 for a pair outside its range.
#[inline]
pub fn entry(m: u32, k: u32) -> u64 {
    place(m, k).map_or(0, |at| BOOK[at])
}

/// A row's own pattern: m, k and p.
#[derive(Clone, Copy, Debug, PartialEq, Eq)]
pub struct Pattern {
    pub m: u32,
    pub k: u32,
    pub p: u32,
}

impl Pattern {
    /// The mandatory ones among the first q jobs: of an even pattern as [`count`] has
    /// it, of a deeply-red one "floor(q / k) x m plus the smaller of q mod k and m".
    ///
    /// A pair outside its range, and a p that is neither, have no mandatory jobs: 0.
    pub const fn count(self, q: u32) -> u64 {
        let Pattern { m, k, p } = self;
        match p {
            EVEN => count(m, k, q),
            RED if is_pair(m, k) => {
                let (whole, rest) = (q / k, q % k);
                let last = if rest < m { rest } else { m };
                whole as u64 * m as u64 + last as u64
            }
            _ => 0,
        }
    }

    /// Bit a, for a below k, is set exactly when job a is mandatory: the book's word,
    /// or m bits in a row. 0 where there is no such pattern.
    pub fn word(self) -> u64 {
        let Pattern { m, k, p } = self;
        match p {
            EVEN => entry(m, k),
            RED if is_pair(m, k) => u64::MAX >> (K_MAX - m),
            _ => 0,
        }
    }

    /// Whether the job is mandatory. The pattern of k jobs comes again and again.
    pub fn is_mandatory(self, job: u32) -> bool {
        let place = job.checked_rem(self.k);
        place.is_some_and(|place| self.word() >> (place % K_MAX) & 1 == 1)
    }
}

/// A question that takes m and k: "8, 9, each with row 0", otherwise this value.
pub fn asked(m: u32, k: u32, value: impl FnOnce() -> u64) -> Answer {
    if !(1..=K_MAX).contains(&k) {
        return Answer::refused_at(refusal::K, 0);
    }
    if !(1..=k).contains(&m) {
        return Answer::refused_at(refusal::M, 0);
    }
    Answer::accepted(value())
}

/// "A question about one job takes m, k and any 32-bit job number." "For a
/// question about one job: 8, 9, each with row 0." "The job question keeps m, k and
/// the even rule" (document 02, 3/14).
///
/// The value is 1 for a mandatory job and 0 for an optional one.
#[inline]
pub fn job(m: u32, k: u32, a: u32) -> Answer {
    asked(m, k, || mandatory(m, k, a).into())
}

/// The same question by one remainder: it "answers as before" (document 02, 6/14).
#[inline]
pub fn job_by_remainder(m: u32, k: u32, a: u32) -> Answer {
    asked(m, k, || mandatory_by_remainder(m, k, a).into())
}
