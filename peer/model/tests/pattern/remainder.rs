//! "Cheaper job question" (document 02, 6/14): the rule by one remainder gives what the
//! rule of document 01 gives.

use peer::answer::Answer;
use peer::gen::job_question;
use peer::pattern::{job, job_by_remainder, mandatory, mandatory_by_remainder};
use peer::rng::Rng;

use super::{grows_over, pairs};

/// Whether the job is mandatory: both forms, and both questions, say the same.
fn kind(m: u32, k: u32, a: u32) -> bool {
    let kind = mandatory(m, k, a);
    assert_eq!(mandatory_by_remainder(m, k, a), kind, "({m},{k}) job {a}");
    let answer = Answer::accepted(kind.into());
    assert_eq!(job(m, k, a), answer, "({m},{k}) job {a}");
    assert_eq!(job_by_remainder(m, k, a), answer, "({m},{k}) job {a}");
    kind
}

fn rest(m: u32, k: u32, a: u32) -> u32 {
    (u64::from(a) * u64::from(m) % u64::from(k)) as u32
}

/// (3,5): the remainders are 0, 3, 1, 4, 2, and those that count are 0, 3 and 4. With
/// (2,4), 0, 2, 0, 2: the 2 is k - m, which is not greater than itself.
#[test]
fn by_hand() {
    assert_eq!([0, 1, 2, 3, 4].map(|a| rest(3, 5, a)), [0, 3, 1, 4, 2]);
    let kinds = [true, true, false, true, false];
    assert_eq!([0, 1, 2, 3, 4].map(|a| kind(3, 5, a)), kinds);
    assert_eq!([0, 1, 2, 3].map(|a| rest(2, 4, a)), [0, 2, 0, 2]);
    let kinds = [true, false, true, false];
    assert_eq!([0, 1, 2, 3].map(|a| kind(2, 4, a)), kinds);
}

/// The first jobs and the last, for every pair.
#[test]
fn at_both_ends() {
    for (m, k) in pairs() {
        for a in (0..=200).chain(u32::MAX - 199..=u32::MAX) {
            assert_eq!(kind(m, k, a), grows_over(m, k, a), "({m},{k}) job {a}");
        }
    }
}

/// "0 or greater than k - m": what the rule of document 01 says on each side of both.
#[test]
fn on_each_side() {
    let mut seen = [0u32; 5];
    for (m, k) in pairs() {
        for a in (0..k).chain(u32::MAX - k + 1..=u32::MAX) {
            let rest = rest(m, k, a);
            let sides = [
                (0, true),
                (1, k - m < 1),
                (k - m, k == m),
                (k - m + 1, true),
                (k - 1, m > 1 || k == 1),
            ];
            for (seen, (side, expected)) in seen.iter_mut().zip(sides) {
                if rest == side {
                    *seen += 1;
                    assert_eq!(kind(m, k, a), expected, "({m},{k}) job {a} rest {rest}");
                }
            }
        }
    }
    assert!(seen.iter().all(|&cases| cases > 1_000), "{seen:?}");
}

/// a x m just below, at and just above each multiple of 2^31, where it would pass the
/// end of 32 bits, signed or not.
#[test]
fn products_of_more_than_32_bits() {
    for (m, k) in pairs() {
        for half in 1..2 * u64::from(m) {
            let at = (half << 31).div_ceil(m.into()) as u32;
            for a in at - 3..=at + 3 {
                assert_eq!(kind(m, k, a), grows_over(m, k, a), "({m},{k}) job {a}");
            }
        }
    }
}

#[test]
fn drawn_jobs() {
    let mut rng = Rng::new(66);
    let mut seen = [0u32; 4];
    for _ in 0..1_000_000 {
        let (m, k, a) = job_question(&mut rng);
        let answer = job_by_remainder(m, k, a);
        assert_eq!(answer, job(m, k, a), "({m},{k}) job {a}");
        seen[match answer.refusal {
            0 => usize::from(kind(m, k, a)),
            8 => 2,
            _ => 3,
        }] += 1;
    }
    assert!(seen.iter().all(|&cases| cases > 10_000), "{seen:?}");
}

/// Outside the range there is no mandatory job, and both questions refuse alike: 8
/// before 9.
#[test]
fn outside_the_range() {
    let words = (0..=130).chain([255, 256, 257, 65_600, u32::MAX - 1, u32::MAX]);
    for k in words.clone() {
        for m in words.clone() {
            let refusal = match (k, m) {
                (0 | 65.., _) => 8,
                (_, 0) => 9,
                _ if m > k => 9,
                _ => continue,
            };
            for a in [0, 1, 64, u32::MAX] {
                let refused = Answer::refused_at(refusal, 0);
                assert_eq!(job_by_remainder(m, k, a), refused, "({m},{k}) job {a}");
                assert_eq!(job(m, k, a), refused, "({m},{k}) job {a}");
                assert!(!mandatory_by_remainder(m, k, a) && !mandatory(m, k, a));
            }
        }
    }
}
