//! Which states are well formed: drawn ones, damaged ones, and words of any kind.

use peer::answer::Answer;
use peer::dispatch::{run_words, tick_words, well_formed_words};
use peer::gen::{damaged_states, scrambled_state, state};
use peer::rng::Rng;

use super::literal::{answer_of, well_formed_literally};
use super::places::{row, D, HELD, LEFT, MM, RELEASED, WORK};

#[test]
fn drawn_states_are_well_formed() {
    let mut rng = Rng::new(10);
    let (mut live, mut dead, mut unreached) = (0, 0, 0);
    for _ in 0..20_000 {
        let words = state(&mut rng);
        assert!(well_formed_literally(&words), "{words:?}");
        assert_eq!(well_formed_words(&words), Answer::accepted(0), "{words:?}");
        for at in 0..words[0] as usize {
            let row = &words[row(at)];
            live += u32::from(row[WORK] > 0);
            dead += u32::from(row[WORK] == 0);
            // A run from fresh never has more ticks left than D.
            unreached += u32::from(row[LEFT] > row[D]);
        }
    }
    assert!(live > 10_000 && dead > 10_000 && unreached > 1_000);
}

/// The word's name: 0 to 2 in the head, 3 to 22 in a row; none past the last row.
fn field_of(words: &[u64], at: usize) -> Option<usize> {
    let rows = words[0].min(32) as usize;
    match at {
        0..3 => Some(at),
        _ if at >= 3 + 20 * rows => None,
        _ => Some(3 + (at - 3) % 20),
    }
}

/// Every word of a saved state damaged in turn.
#[test]
fn damaged_states_are_told_apart() {
    let mut rng = Rng::new(11);
    let (mut kept, mut broken, mut past) = ([0u32; 23], [0u32; 23], 0);
    for _ in 0..300 {
        let good = state(&mut rng);
        for damaged in damaged_states(&mut rng, &good) {
            let words = damaged.words;
            let expected = well_formed_literally(&words);
            let answer = answer_of(expected);
            assert_eq!(well_formed_words(&words), answer, "word {}", damaged.at);
            match field_of(&words, damaged.at) {
                None => past += 1,
                Some(field) if expected => kept[field] += 1,
                Some(field) => broken[field] += 1,
            }
        }
    }
    assert!(broken.iter().all(|&cases| cases > 100), "{broken:?}");
    // The released count and the four settled ones are tied to one another, the
    // number of rows to the rows and that of met marks to the window: none of these
    // can change alone.
    let tied = [0, 3 + RELEASED, 3 + MM, 4 + MM, 5 + MM, 6 + MM, 3 + HELD];
    for (field, &cases) in kept.iter().enumerate() {
        assert_eq!(cases == 0, tied.contains(&field), "word {field}: {cases}");
    }
    assert!(past > 1_000);
}

#[test]
fn scrambled_states_are_told_apart() {
    let mut rng = Rng::new(12);
    let (mut kept, mut broken) = (0, 0);
    for _ in 0..30_000 {
        let mut words = scrambled_state(&mut rng);
        let before = words.clone();
        let expected = well_formed_literally(&words);
        assert_eq!(well_formed_words(&words).is_accepted(), expected);
        if expected {
            kept += 1;
        } else {
            broken += 1;
            let n = rng.bits() as u32;
            assert_eq!(run_words(&mut words, n), Answer::refused(14));
            assert_eq!(run_words(&mut words, 0), Answer::refused(14));
            assert_eq!(tick_words(&mut words), Answer::refused(14));
            assert_eq!(words, before);
        }
    }
    assert!(kept > 300 && broken > 10_000, "{kept} and {broken}");
}
