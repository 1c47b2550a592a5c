//! The plain run against the run with bit sets: the same answer and the same
//! state, refused or not.

use peer::answer::Answer;
use peer::dispatch::{fresh, from_words, run, run_plain, Row, State};
use peer::gen::{boundary_table, loaded_table, scrambled_state, state, table, tiny_table};
use peer::rng::Rng;

/// Both runs of n ticks from one state, which goes on from there.
fn both(now: &mut State, n: u32) -> Answer {
    let before = now.clone();
    let mut plain = now.clone();
    let answer = run(now, n);
    assert_eq!(run_plain(&mut plain, n), answer, "{n} ticks, {before:?}");
    assert_eq!(plain, *now, "{n} ticks, {before:?}");
    if !answer.is_accepted() {
        assert_eq!(plain, before);
    }
    answer
}

#[test]
fn tick_by_tick_on_drawn_states() {
    let mut rng = Rng::new(60);
    let (mut ran, mut past_end) = (0, 0);
    for _ in 0..6_000 {
        let mut now = from_words(&state(&mut rng)).unwrap();
        for _ in 0..rng.below(120) {
            match both(&mut now, 1).refusal {
                0 => ran += 1,
                number => {
                    assert_eq!(number, 15);
                    past_end += 1;
                }
            }
        }
    }
    assert!(ran > 200_000 && past_end > 5_000, "{ran} and {past_end}");
}

#[test]
fn runs_on_drawn_states() {
    let mut rng = Rng::new(61);
    let mut seen = [0; 16];
    for _ in 0..20_000 {
        let mut now = from_words(&state(&mut rng)).unwrap();
        let n = match rng.below(8) {
            0 => 0,
            1 if now.time > 0 => u32::MAX,
            _ => rng.word(0, 600),
        };
        seen[both(&mut now, n).refusal as usize] += 1;
    }
    assert!(seen[0] > 10_000 && seen[15] > 1_000, "{seen:?}");
}

/// Counts and kinds of a run, so that no comparison passes on idle rows alone.
fn add_counts(counts: &mut [u64; 6], state: &State) {
    counts[0] += u64::from(state.idle);
    for Row {
        mm,
        mx,
        om,
        ox,
        broken,
        ..
    } in state.row
    {
        for (sum, count) in counts[1..].iter_mut().zip([mm, mx, om, ox, broken]) {
            *sum += u64::from(count);
        }
    }
}

#[test]
fn runs_from_fresh() {
    let mut rng = Rng::new(62);
    let mut counts = [0; 6];
    for at in 0..4_000 {
        let draw = [table, loaded_table, tiny_table, boundary_table][at % 4];
        let words = draw(&mut rng);
        let mut now = fresh(&words).unwrap();
        for _ in 0..rng.below(6) {
            let n = rng.word(0, 1_000);
            assert_eq!(both(&mut now, n), Answer::accepted(0));
        }
        add_counts(&mut counts, &now);
    }
    assert!(counts.iter().all(|&count| count > 10_000), "{counts:?}");
}

#[test]
fn ill_formed_states() {
    let mut rng = Rng::new(63);
    let mut refused = 0;
    for _ in 0..20_000 {
        let Some(mut now) = from_words(&scrambled_state(&mut rng)) else {
            continue;
        };
        let n = rng.word(0, 60);
        refused += u32::from(both(&mut now, n) == Answer::refused(14));
    }
    assert!(refused > 2_000, "{refused}");
}
