//! A state by value and its words lent: the same ticks, saved and restored.

use galleypoppy::{counts, fresh, held, run, tick, well};
use galleypoppy::{Counts, Field, Pattern, Refusal, State, STATE_WORDS};

/// Document 01's table.
const TABLE: [u32; 14] = [11, 2, 4, 4, 1, 2, 0, 12, 4, 6, 6, 2, 3, 0];

/// The music stand: marks come and go in the windows of its tuner and its radio slot.
const STAND: [u32; 28] = [
    1, 1, 5, 2, 1, 1, 0, 2, 6, 20, 20, 2, 3, 0, 3, 14, 40, 40, 3, 5, 0, 4, 20, 100, 100, 1, 2, 0,
];

/// Words of a row of a state, and where its pattern, its window and the number of its met marks stand among them.
const ROW: usize = 20;
const P: usize = 6;
const WINDOW: usize = 12;
const HELD: usize = 19;

/// The met marks of a row's window, counted.
fn counted(state: &State, row: usize) -> Option<u64> {
    let window = state.word(row, Field::Window)?;
    Some(u64::from(window.count_ones()))
}

#[test]
fn fresh_as_document_01_says() -> Result<(), Refusal> {
    let state = State::fresh(&TABLE)?;
    assert_eq!((state.rows(), state.time(), state.idle()), (2, 0, 0));
    let row = [
        12, 4, 6, 6, 2, 3, 0, 0, 0, 0, 0, 0, 0b111, 0, 0, 0, 0, 0, 0, 3,
    ];
    assert_eq!(STATE_WORDS, 643);
    assert_eq!(state.words()[3 + ROW..3 + 2 * ROW], row);
    assert!(state.words()[3 + 2 * ROW..].iter().all(|&word| word == 0));
    assert_eq!(state.word(1, Field::Window), Some(0b111));
    assert_eq!(state.word(1, Field::Broken), Some(0));
    assert_eq!(state.word(1, Field::Held), Some(3));
    assert_eq!(state.word(2, Field::Id), None);
    Ok(())
}

/// A state whose table has a p above 1 is not well formed; nor is one with a p past the last row. The other pattern is taken.
#[test]
fn a_wrong_p_is_refused() -> Result<(), Refusal> {
    let mut state = State::fresh(&STAND)?;
    state.run(333)?;
    for row in 0..state.rows() {
        let mut words = *state.words();
        for wrong in [2, 64, 1 << 32, u64::MAX] {
            words[3 + row * ROW + P] = wrong;
            refused_as_a_state(&words);
        }
        words[3 + row * ROW + P] = 1;
        let other = State::restore(&words)?;
        assert_eq!(other.pattern(row), Some(Pattern::DeeplyRed));
    }
    let mut words = *state.words();
    words[3 + 4 * ROW + P] = 1;
    refused_as_a_state(&words);
    Ok(())
}

#[test]
fn a_room_may_be_longer() -> Result<(), Refusal> {
    let mut room = [77; STATE_WORDS + 2];
    assert_eq!(fresh(&TABLE, &mut room), Ok(2));
    assert_eq!(room[..STATE_WORDS], State::fresh(&TABLE)?.words()[..]);
    assert_eq!(room[STATE_WORDS..], [77; 2]);
    Ok(())
}

#[test]
fn document_01s_counts() -> Result<(), Refusal> {
    let mut state = State::fresh(&TABLE)?;
    state.run(24)?;
    let first = Counts {
        released: 6,
        mm: 3,
        om: 2,
        ox: 1,
        spare: 1,
        ..Counts::default()
    };
    let second = Counts {
        released: 4,
        mm: 3,
        ox: 1,
        ..Counts::default()
    };
    assert_eq!(state.idle(), 0);
    assert_eq!(
        (state.counts(0), state.counts(1)),
        (Some(first), Some(second))
    );
    assert_eq!(state.counts(2), None);
    assert_eq!(counts(state.words(), 2), Ok(Counts::default()));
    Ok(())
}

/// One met mark of three is enough for the row: as the oldest mark it is lost with the next miss, as the newest it outlasts two.
#[test]
fn spare_is_the_misses_left() -> Result<(), Refusal> {
    let mut state = State::fresh(&[1, 2, 3, 3, 1, 3, 0, 2, 7, 9, 9, 1, 1, 0])?;
    state.run(9)?;
    assert_eq!(state.counts(0).map(|row| row.spare), Some(0));
    state.run(3)?;
    assert_eq!(state.counts(0).map(|row| row.spare), Some(2));
    Ok(())
}

#[test]
fn held_is_k_when_fresh() -> Result<(), Refusal> {
    let ks = [1, 2, 3, 5, 63, 64];
    let table: Vec<u32> = (1..)
        .zip(ks)
        .flat_map(|(id, k)| [id, 1, 9, 9, 1, k, id % 2])
        .collect();
    let state = State::fresh(&table)?;
    for (row, k) in ks.into_iter().enumerate() {
        assert_eq!(state.held(row), Some(u64::from(k)));
    }
    Ok(())
}

/// Every job of the row is missed, at ticks 1, 5, 9 and so on: its three met marks go one by one, and then there are none to go.
#[test]
fn held_falls_with_each_miss() -> Result<(), Refusal> {
    let mut state = State::fresh(&[1, 2, 4, 1, 1, 3, 0])?;
    for marks in [3, 2, 1, 0, 0] {
        assert_eq!(state.held(0), Some(marks));
        state.run(if state.time() == 0 { 1 } else { 4 })?;
    }
    Ok(())
}

/// After every tick, and after all of them in one run. The tuner's number falls and rises on the way.
#[test]
fn held_is_the_met_marks_of_the_window() -> Result<(), Refusal> {
    let mut state = State::fresh(&STAND)?;
    let mut tuner = vec![3];
    while state.time() < 1000 {
        state.tick()?;
        for row in 0..4 {
            assert_eq!(state.held(row), counted(&state, row));
            assert_eq!(state.held(row), state.word(row, Field::Held));
        }
        tuner.extend(state.held(1));
    }
    tuner.dedup();
    assert!(tuner.starts_with(&[3, 2, 3, 2, 3]));
    let mut at_once = State::fresh(&STAND)?;
    at_once.run(1000)?;
    assert_eq!(
        [0, 1, 2, 3].map(|row| at_once.held(row)),
        [1, 3, 5, 1].map(Some)
    );
    Ok(())
}

#[test]
fn held_of_no_row_is_0() -> Result<(), Refusal> {
    let state = State::fresh(&TABLE)?;
    for row in [2, 31, 32, u32::MAX] {
        assert_eq!(held(state.words(), row), Ok(0));
        assert_eq!(state.held(row as usize), None);
    }
    Ok(())
}

/// The number is handed back as it is stored, whatever the other words are.
#[test]
fn held_does_not_look_at_the_rows() {
    let mut words = [7; STATE_WORDS];
    words[3 + HELD] = u64::MAX;
    assert_eq!(well(&words), Err(Refusal::State));
    assert_eq!((held(&words, 0), held(&words, 6)), (Ok(u64::MAX), Ok(7)));
    assert_eq!(held(&words, 7), Ok(0));
}

/// One more or one less than the window's met marks, in any row, is no well-formed state; nor is another window beside the same
/// number. With its own number that window is taken.
#[test]
fn a_wrong_held_is_refused() -> Result<(), Refusal> {
    let mut state = State::fresh(&STAND)?;
    for _ in 0..3 {
        for row in 0..state.rows() {
            let at = 3 + row * ROW;
            let number = state.words()[at + HELD];
            for wrong in [number + 1, number.wrapping_sub(1)] {
                let mut words = *state.words();
                words[at + HELD] = wrong;
                refused_as_a_state(&words);
                assert_eq!(held(&words, row as u32), Ok(wrong));
            }
            let mut words = *state.words();
            words[at + WINDOW] ^= 1;
            refused_as_a_state(&words);
            words[at + HELD] = u64::from(words[at + WINDOW].count_ones());
            assert_eq!(
                State::restore(&words).map(|state| *state.words()),
                Ok(words)
            );
        }
        state.run(333)?;
    }
    // A row past the last has no met marks either.
    let mut words = *State::fresh(&TABLE)?.words();
    words[3 + 2 * ROW + HELD] = 1;
    refused_as_a_state(&words);
    Ok(())
}

/// Refusal 14 by every function that looks whether a state is well formed; what was lent stays as it was.
fn refused_as_a_state(words: &[u64]) {
    let mut lent = words.to_vec();
    assert_eq!(State::restore(words), Err(Refusal::State));
    assert_eq!(well(words), Err(Refusal::State));
    assert_eq!(counts(words, 0), Err(Refusal::State));
    assert_eq!(tick(&mut lent), Err(Refusal::State));
    assert_eq!(run(&mut lent, 0), Err(Refusal::State));
    assert_eq!(lent, words);
}

/// The words as they were saved before a row had its pattern, 19 a row, and before it had its number of met marks, 18 a row.
#[test]
fn an_earlier_state_is_refused() -> Result<(), Refusal> {
    let mut state = State::fresh(&STAND)?;
    for _ in 0..3 {
        for (end, length) in [(ROW, 611), (HELD, 579)] {
            let (head, rows) = state.words().split_at(3);
            let mut earlier = head.to_vec();
            for row in rows.chunks(ROW) {
                earlier.extend_from_slice(&row[..P]);
                earlier.extend_from_slice(&row[P + 1..end]);
            }
            assert_eq!(earlier.len(), length);
            refused_as_a_state(&earlier);
            assert_eq!(held(&earlier, 0), Err(Refusal::State));
        }
        state.run(333)?;
    }
    Ok(())
}

#[test]
fn a_run_is_its_ticks_in_any_pieces() -> Result<(), Refusal> {
    let mut whole = State::fresh(&TABLE)?;
    whole.run(1000)?;
    let mut ticked = State::fresh(&TABLE)?;
    let mut lent = *ticked.words();
    for n in 0..1000 {
        ticked.tick()?;
        tick(&mut lent)?;
        assert_eq!((ticked.time(), &lent), (n + 1, ticked.words()));
    }
    assert_eq!(ticked, whole);
    let mut pieces = *State::fresh(&TABLE)?.words();
    for n in [0, 1, 333, 666] {
        run(&mut pieces, n)?;
        pieces = *State::restore(&pieces)?.words();
    }
    assert_eq!(State::restore(&pieces), Ok(whole));
    Ok(())
}
