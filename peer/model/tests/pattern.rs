//! "Patterns": the rule, its counts and the book.

#[path = "pattern/remainder.rs"]
mod remainder;

use peer::answer::Answer;
use peer::brute::pattern as literal;
use peer::gen::job_question;
use peer::pattern::{book, count, entry, is_pair, job, mandatory, place, word, PAIRS};
use peer::pattern::{Pattern, EVEN, RED};
use peer::rng::Rng;

fn pairs() -> impl Iterator<Item = (u32, u32)> {
    (1..=64).flat_map(|k| (1..=k).map(move |m| (m, k)))
}

/// The same kind by another road: a job is mandatory when the mandatory count
/// grows over it. In 128 bits.
fn grows_over(m: u32, k: u32, a: u32) -> bool {
    let (m, k, a) = (u128::from(m), u128::from(k), u128::from(a));
    let before = (a * m).div_ceil(k);
    let after = ((a + 1) * m).div_ceil(k);
    after > before
}

#[test]
fn the_rule_is_where_the_count_grows() {
    for (m, k) in pairs() {
        for a in 0..200 {
            assert_eq!(mandatory(m, k, a), grows_over(m, k, a), "({m},{k}) job {a}");
        }
    }
}

/// "the first q jobs hold exactly ceil(q x m / k) mandatory ones"
#[test]
fn the_first_q_jobs() {
    for (m, k) in pairs() {
        let mut seen = 0;
        for q in 0..200 {
            assert_eq!(count(m, k, q), seen, "({m},{k}) first {q}");
            seen += u64::from(mandatory(m, k, q));
        }
    }
}

/// "q jobs in a row anywhere hold no more than that and no fewer than
/// floor(q x m / k); k in a row hold exactly m."
#[test]
fn q_jobs_in_a_row_anywhere() {
    for (m, k) in pairs() {
        let kinds: Vec<u64> = (0..2 * k).map(|a| u64::from(mandatory(m, k, a))).collect();
        for from in 0..k as usize {
            let mut held = 0;
            for q in 1..=k {
                held += kinds[from + q as usize - 1];
                let floor = u64::from(q * m / k);
                assert!(
                    held <= count(m, k, q) && held >= floor,
                    "({m},{k}) {from}+{q}"
                );
            }
            assert_eq!(held, u64::from(m));
        }
    }
}

#[test]
fn the_book() {
    let book = book();
    assert_eq!(book.len(), PAIRS);
    assert_eq!(book.len(), 2_080);
    // k(k-1)/2 + m - 1 counts the pairs up, k by k and m by m.
    for (at, (m, k)) in pairs().enumerate() {
        assert_eq!(place(m, k), Some(at));
        assert_eq!(book[at], word(m, k));
        assert_eq!(entry(m, k), word(m, k));
        for a in 0..64 {
            let expected = a < k && mandatory(m, k, a);
            assert_eq!(book[at] >> a & 1 == 1, expected, "({m},{k}) bit {a}");
        }
    }
}

/// A pattern repeats after k jobs, so a job's kind is the book's bit at its
/// number modulo k, out to the last job number.
#[test]
fn questions_about_one_job() {
    let mut rng = Rng::new(1);
    let mut seen = [0u32; 4];
    for _ in 0..200_000 {
        let (m, k, a) = job_question(&mut rng);
        let expected = if k == 0 || k > 64 {
            seen[0] += 1;
            Answer::refused_at(8, 0)
        } else if m == 0 || m > k {
            seen[1] += 1;
            Answer::refused_at(9, 0)
        } else {
            let kind = entry(m, k) >> (a % k) & 1;
            seen[2 + kind as usize] += 1;
            assert_eq!(kind == 1, grows_over(m, k, a));
            Answer::accepted(kind)
        };
        assert_eq!(job(m, k, a), expected, "({m},{k}) job {a}");
    }
    assert!(seen.iter().all(|&cases| cases > 1_000), "{seen:?}");
}

#[test]
fn pairs_outside_their_range() {
    for (m, k) in [
        (0, 0),
        (0, 1),
        (1, 0),
        (2, 1),
        (1, 65),
        (65, 65),
        (u32::MAX, u32::MAX),
    ] {
        assert!(!is_pair(m, k));
        assert_eq!((place(m, k), word(m, k), entry(m, k)), (None, 0, 0));
        assert_eq!(
            (mandatory(m, k, u32::MAX), count(m, k, u32::MAX)),
            (false, 0)
        );
    }
    assert_eq!(job(u32::MAX, u32::MAX, 0), Answer::refused_at(8, 0));
    assert_eq!(job(0, 0, 0), Answer::refused_at(8, 0));
    assert_eq!(job(0, 64, 0), Answer::refused_at(9, 0));
    assert_eq!(job(64, 64, u32::MAX), Answer::accepted(1));
}

/// "the first m of every k jobs are mandatory. The mandatory count of the first q jobs
/// is then floor(q / k) x m plus the smaller of q mod k and m" (document 02, 3/14).
#[test]
fn deeply_red_patterns() {
    for (m, k) in pairs() {
        let red = Pattern { m, k, p: RED };
        assert_eq!(red.word().count_ones(), m);
        assert_eq!(red.word().trailing_ones(), m);
        let mut seen = 0;
        for q in 0..200 {
            assert_eq!(red.count(q), seen, "({m},{k}) first {q}");
            let expected = q % k < m;
            assert_eq!(red.is_mandatory(q), expected, "({m},{k}) job {q}");
            assert_eq!(literal::is_mandatory(red, q), expected, "({m},{k}) job {q}");
            seen += u64::from(expected);
        }
        assert_eq!(literal::count(red, 200), seen);
    }
}

/// The even rule in the same form.
#[test]
fn even_patterns() {
    for (m, k) in pairs() {
        let even = Pattern { m, k, p: EVEN };
        assert_eq!(even.word(), entry(m, k));
        for q in 0..200 {
            assert_eq!(even.count(q), count(m, k, q));
            assert_eq!(even.is_mandatory(q), mandatory(m, k, q));
            assert_eq!(literal::is_mandatory(even, q), mandatory(m, k, q));
        }
    }
}

/// What both patterns have: no q jobs in a row hold more than the first q, k in a row
/// hold exactly m; and the first q of the red one hold no fewer than of the even one.
#[test]
fn what_a_pattern_must_have() {
    for ((m, k), p) in pairs().flat_map(|pair| [(pair, EVEN), (pair, RED)]) {
        let pattern = Pattern { m, k, p };
        let kinds: Vec<u64> = (0..2 * k)
            .map(|a| u64::from(literal::is_mandatory(pattern, a)))
            .collect();
        for from in 0..k as usize {
            let mut held = 0;
            for q in 1..=k {
                held += kinds[from + q as usize - 1];
                assert!(held <= pattern.count(q), "({m},{k}) p {p} {from}+{q}");
            }
            assert_eq!(held, u64::from(m), "({m},{k}) p {p} {from}");
        }
        let red = Pattern { m, k, p: RED };
        assert!(
            (0..200).all(|q| count(m, k, q) <= red.count(q)),
            "({m},{k})"
        );
    }
}

/// Far jobs: near the last job number nothing wraps.
#[test]
fn far_red_jobs() {
    let mut rng = Rng::new(65);
    for _ in 0..100_000 {
        let k = rng.word(1, 64);
        let red = Pattern {
            m: rng.word(1, k),
            k,
            p: RED,
        };
        let far = rng.word(0, 31);
        let job = u32::MAX - rng.word(0, 1 << far);
        assert_eq!(red.is_mandatory(job), literal::is_mandatory(red, job));
        let grown = red.count(job) - red.count(job - 1);
        assert_eq!(
            grown == 1,
            literal::is_mandatory(red, job - 1),
            "{red:?} {job}"
        );
    }
}

#[test]
fn no_pattern() {
    for (m, k, p) in [
        (1, 1, 2),
        (2, 4, u32::MAX),
        (0, 0, 1),
        (0, 5, 1),
        (6, 5, 1),
        (1, 65, 1),
        (65, 65, 0),
        (u32::MAX, u32::MAX, 1),
    ] {
        let none = Pattern { m, k, p };
        assert_eq!((none.word(), none.count(u32::MAX)), (0, 0), "{none:?}");
        assert_eq!(literal::count(none, 100), 0, "{none:?}");
        assert!(!none.is_mandatory(0) && !none.is_mandatory(u32::MAX));
    }
}
