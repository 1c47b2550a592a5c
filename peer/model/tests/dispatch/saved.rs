//! Fresh states in their saved form, and states saved and read back.

use peer::answer::Answer;
use peer::dispatch::{fresh_words, from_words, to_words, well_formed};
use peer::dispatch::{well_formed_words, State, STATE_WORDS};
use peer::gen::{faulty_table, state, table};
use peer::rng::Rng;
use peer::table::check;

use super::literal::fresh_literally;

#[test]
fn fresh_states() {
    let mut rng = Rng::new(17);
    let mut seen = [0u32; 17];
    for at in 0..10_000 {
        let words = if at % 2 == 0 {
            faulty_table(&mut rng)
        } else {
            table(&mut rng)
        };
        let mut room = vec![3; [0, 642, 643, 643, 644, 600][rng.index(6)]];
        let mut expected = room.clone();
        let answer = fresh_words(&words, &mut room);
        seen[answer.refusal as usize] += 1;
        let of_the_table = check(&words);
        if of_the_table.is_accepted() && room.len() < STATE_WORDS {
            assert_eq!(answer, Answer::refused(13));
        } else {
            assert_eq!(answer, of_the_table);
        }
        if answer.is_accepted() {
            expected[..643].copy_from_slice(&fresh_literally(&words));
        }
        assert_eq!(room, expected);
    }
    // All but 11, 12, 14 and 15, which are no refusals of a table's.
    let unseen: Vec<usize> = (0..17).filter(|&number| seen[number] == 0).collect();
    assert_eq!(unseen, [11, 12, 14, 15]);
}

#[test]
fn saved_and_read_back() {
    let mut rng = Rng::new(18);
    for _ in 0..5_000 {
        let words = state(&mut rng);
        let state: State = from_words(&words).unwrap();
        assert!(well_formed(&state));
        assert_eq!(to_words(&state).as_slice(), words);
    }
    assert!(from_words(&[0; 642]).is_none() && from_words(&[0; 644]).is_none());
    // What was a saved state before its rows had a p.
    assert!(from_words(&[0; 611]).is_none());
    assert!(from_words(&[0; 643]).is_some());
    assert_eq!(well_formed_words(&[0; 643]), Answer::refused(14));
    assert_eq!(well_formed_words(&[]), Answer::refused(14));
}
