//! Request 3/14 of document 02: even and deeply-red rows, in a run and in the verdict.

use galleypoppy::{job, verdict, Field, Kind, Pattern, Refusal, State};

/// The kinds of the first jobs of a row that is alone. Each takes two ticks, so after the first its kind is there to be read.
fn kinds(m: u32, k: u32, pattern: Pattern, jobs: u32) -> Result<Vec<Kind>, Refusal> {
    let mut state = State::fresh(&[1, 2, 2, 2, m, k, pattern.p()])?;
    let mut kinds = Vec::new();
    for _ in 0..jobs {
        state.tick()?;
        kinds.push(match state.word(0, Field::Kind) {
            Some(1) => Kind::Mandatory,
            _ => Kind::Optional,
        });
        state.tick()?;
    }
    Ok(kinds)
}

/// Three rounds of every pair up to 12, and of some longer ones: a deeply-red row by its own rule, an even one as the job question
/// has it.
#[test]
fn the_kinds_of_both() -> Result<(), Refusal> {
    let pairs = (1..=12).flat_map(|k| (1..=k).map(move |m| (m, k)));
    for (m, k) in pairs.chain([(1, 64), (31, 64), (63, 64), (64, 64), (40, 63)]) {
        let red = kinds(m, k, Pattern::DeeplyRed, 3 * k)?;
        let even = kinds(m, k, Pattern::Even, 3 * k)?;
        for (a, (red, even)) in (0..).zip(red.into_iter().zip(even)) {
            assert_eq!(red == Kind::Mandatory, a % k < m);
            assert_eq!(Ok(even), job(m, k, a));
        }
    }
    Ok(())
}

#[test]
fn the_pattern_of_a_row() -> Result<(), Refusal> {
    let state = State::fresh(&[1, 1, 9, 9, 2, 4, 1, 2, 1, 9, 9, 2, 4, 0])?;
    assert_eq!(state.pattern(0), Some(Pattern::DeeplyRed));
    assert_eq!(state.pattern(1), Some(Pattern::Even));
    assert_eq!(state.pattern(2), None);
    assert_eq!(state.word(0, Field::P), Some(1));
    assert_eq!(state.word(1, Field::P), Some(0));
    Ok(())
}

#[test]
fn the_word_of_a_pattern() {
    for pattern in [Pattern::Even, Pattern::DeeplyRed] {
        assert_eq!(Pattern::of(pattern.p()), Some(pattern));
    }
    assert_eq!((Pattern::Even.p(), Pattern::DeeplyRed.p()), (0, 1));
    assert_eq!((Pattern::of(2), Pattern::of(u32::MAX)), (None, None));
}

/// Two rows, the upper one with 2 of 4. By tick 8 it has one mandatory job if it is even, two if it is deeply-red.
fn two_rows(c: u32, upper: Pattern, lower: Pattern) -> [u32; 14] {
    [1, 2, 4, 4, 2, 4, upper.p(), 2, c, 8, 8, 2, 4, lower.p()]
}

/// A row's own pattern plays no part in its own response time.
#[test]
fn the_verdict_counts_by_each_rows_pattern() {
    let mut room = [0; 2];
    for lower in [Pattern::Even, Pattern::DeeplyRed] {
        let even = two_rows(4, Pattern::Even, lower);
        assert_eq!(verdict(&even, &mut room), Ok(&[2, 6][..]));
        let red = two_rows(4, Pattern::DeeplyRed, lower);
        assert_eq!(verdict(&red, &mut room), Ok(&[2, 8][..]));
        let even = two_rows(5, Pattern::Even, lower);
        assert_eq!(verdict(&even, &mut room), Ok(&[2, 7][..]));
        let red = two_rows(5, Pattern::DeeplyRed, lower);
        assert_eq!(verdict(&red, &mut room), Err(Refusal::Unschedulable(1)));
    }
}

/// The first job of each row takes its response time, the upper row even or deeply-red.
#[test]
fn the_first_job_takes_the_response_time() -> Result<(), Refusal> {
    for (upper, response) in [(Pattern::Even, 6), (Pattern::DeeplyRed, 8)] {
        let mut state = State::fresh(&two_rows(4, upper, Pattern::Even))?;
        state.run(response - 1)?;
        assert_eq!(state.counts(1).map(|row| row.mm), Some(0));
        state.tick()?;
        assert_eq!(state.counts(1).map(|row| row.mm), Some(1));
    }
    Ok(())
}
