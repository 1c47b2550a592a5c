//! The number of met marks (document 02, 2/14): the dispatcher amends it, and it
//! is what counting the window anew gives; the frame question reads it and looks
//! at little else.

use peer::answer::Answer;
use peer::brute::held::{met_among, untrue};
use peer::counts::{counts_words, held_counted_words, held_words};
use peer::dispatch::{fresh_words, run_words, tick_words, well_formed_words};
use peer::gen::{boundary_table, loaded_table, state, table, tiny_table};
use peer::rng::Rng;

/// Words of a saved state, and of one before its rows had a p.
const WORDS: usize = 643;
const OLD_WORDS: usize = 611;

/// Where the window and the number stand in a row.
const WINDOW: usize = 12;
const HELD: usize = 19;

fn at(row: usize, word: usize) -> usize {
    3 + 20 * row + word
}

fn fresh(table: &[u32]) -> Vec<u64> {
    let mut words = vec![0; WORDS];
    assert!(fresh_words(table, &mut words).is_accepted());
    words
}

/// Every row's number is its window's, and the frame question gives it; past the
/// last row it gives 0.
fn is_true(words: &[u64]) {
    assert_eq!(untrue(words), None, "{words:?}");
    let rows = words[0] as usize;
    for row in 0..40 {
        let kept = if row < rows { words[at(row, HELD)] } else { 0 };
        assert_eq!(held_words(words, row as u32), Answer::accepted(kept));
        assert_eq!(
            held_counted_words(words, row as u32),
            Answer::accepted(kept)
        );
    }
}

#[test]
fn fresh_states_hold_k() {
    let mut rng = Rng::new(80);
    for _ in 0..3_000 {
        let table = table(&mut rng);
        let words = fresh(&table);
        is_true(&words);
        for (row, seven) in table.chunks(7).enumerate() {
            assert_eq!(words[at(row, HELD)], u64::from(seven[5]));
        }
    }
}

#[test]
fn kept_true_tick_by_tick() {
    let mut rng = Rng::new(81);
    // Ticks after which a row's number has gone down, stayed, gone up.
    let mut moved = [0u64; 3];
    for turn in 0..2_000 {
        let draw = [table, loaded_table, tiny_table, boundary_table][turn % 4];
        let mut words = fresh(&draw(&mut rng));
        for _ in 0..rng.below(300) {
            let before = words.clone();
            assert!(tick_words(&mut words).is_accepted());
            is_true(&words);
            for row in 0..words[0] as usize {
                let (was, now) = (before[at(row, HELD)], words[at(row, HELD)]);
                assert!(was.abs_diff(now) <= 1);
                moved[(now + 1 - was) as usize] += 1;
            }
        }
    }
    assert!(moved.iter().all(|&rows| rows > 5_000), "{moved:?}");
}

#[test]
fn kept_true_by_runs_from_any_state() {
    let mut rng = Rng::new(82);
    for _ in 0..10_000 {
        let mut words = state(&mut rng);
        is_true(&words);
        run_words(&mut words, rng.word(0, 400));
        is_true(&words);
    }
}

/// Row 1 misses k jobs and then meets one, again and again.
#[test]
fn each_end_of_the_window() {
    for k in 1..=64u32 {
        let mut words = fresh(&[1, k, k + 1, k + 1, 1, 1, 0, 2, 1, 1, 1, 1, k, 1]);
        for missed in 1..=k {
            assert!(tick_words(&mut words).is_accepted());
            assert_eq!(words[at(1, HELD)], u64::from(k - missed));
        }
        assert_eq!(words[at(1, WINDOW)], 0);
        assert!(tick_words(&mut words).is_accepted());
        assert_eq!((words[at(1, WINDOW)], words[at(1, HELD)]), (1, 1));
    }
}

/// Words that are no state as far as the frame question looks, and words that are
/// none only where it does not.
#[test]
fn the_frame_question_by_hand() {
    let words = fresh(&[11, 2, 4, 4, 1, 2, 0, 12, 4, 6, 6, 2, 3, 1]);
    assert_eq!(held_words(&words, 0), Answer::accepted(2));
    assert_eq!(held_words(&words, 1), Answer::accepted(3));
    for row in [2, 31, 32, 33, u32::MAX] {
        assert_eq!(held_words(&words, row), Answer::accepted(0));
    }
    for length in [0, 1, 2, 3, 22, 43, 579, 611, 642, 644, 1_286] {
        let mut other = words.clone();
        other.resize(length, 0);
        assert_eq!(held_words(&other, 0), Answer::refused(14), "{length} words");
    }
    let mut damaged = words.clone();
    for rows in [0, 33, 1 << 32, (1 << 32) + 1, u64::MAX] {
        damaged[0] = rows;
        assert_eq!(held_words(&damaged, 0), Answer::refused(14), "{rows} rows");
    }
    damaged[0] = 1;
    assert_eq!(held_words(&damaged, 0), Answer::accepted(2));
    assert_eq!(held_words(&damaged, 1), Answer::accepted(0));
    damaged.fill(u64::MAX);
    damaged[0] = 32;
    assert_eq!(held_words(&damaged, 31), Answer::accepted(u64::MAX));
    assert_eq!(held_words(&damaged, 32), Answer::accepted(0));
}

/// The number alone, the window alone, and both together.
#[test]
fn an_untrue_number_is_refused() {
    let mut rng = Rng::new(83);
    for _ in 0..10_000 {
        let good = state(&mut rng);
        let row = rng.index(good[0] as usize);
        let (window, held) = (at(row, WINDOW), at(row, HELD));
        let mark = rng.below(good[at(row, 5)]);
        let mut words = good.clone();
        words[held] = words[held].wrapping_add([1, u64::MAX, 1 << 32][rng.index(3)]);
        refused_by_all(&words);
        let mut words = good.clone();
        words[window] ^= 1 << mark;
        refused_by_all(&words);
        words[held] = met_among(words[window], 64).into();
        assert_eq!(well_formed_words(&words), Answer::accepted(0));
    }
}

fn refused_by_all(words: &[u64]) {
    let refused = Answer::refused(14);
    let mut after = words.to_vec();
    assert_eq!(well_formed_words(words), refused);
    assert_eq!(tick_words(&mut after), refused);
    assert_eq!(run_words(&mut after, 0), refused);
    assert_eq!(counts_words(words, 0, &mut [0; 7]), refused);
    assert_eq!(after, words);
}

/// A state saved before its rows had a p is refused for its length. With zeros after
/// it, it is none either once a job was released: the released count then stands where
/// the window does, and a zero for the number of its met marks.
#[test]
fn old_saved_states() {
    let mut rng = Rng::new(84);
    for _ in 0..3_000 {
        let new = state(&mut rng);
        let rows = new[3..].chunks_exact(20);
        let rows = rows.flat_map(|row| row[..6].iter().chain(&row[7..]));
        let mut old: Vec<u64> = new[..3].iter().chain(rows).copied().collect();
        assert_eq!(old.len(), OLD_WORDS);
        refused_by_all(&old);
        assert_eq!(held_words(&old, 0), Answer::refused(14));
        old.resize(WORDS, 0);
        if new[0] == 1 && new[at(0, WINDOW + 1)] > 0 {
            refused_by_all(&old);
        }
    }
}
