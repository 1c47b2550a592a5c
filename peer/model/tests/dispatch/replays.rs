//! Replays against the four steps: in the tick of a release its number stands in place
//! of C.

use peer::answer::Answer;
use peer::brute::replay::releases;
use peer::dispatch::replay_words;
use peer::gen::{log, state};
use peer::rng::Rng;

use super::literal::{tick_literally, well_formed_literally};
use super::places::{row, C, CLOCK_END, WAIT};

/// One tick on a saved state whose rows with wait 0 take their numbers from the log, the
/// highest row first.
fn replayed_literally(words: &mut [u64], numbers: &mut impl Iterator<Item = u32>) {
    let before = words.to_vec();
    let rows = words[0] as usize;
    for at in (0..rows).filter(|&at| before[row(at)][WAIT] == 0) {
        words[row(at)][C] = numbers.next().unwrap().into();
    }
    tick_literally(words);
    for at in 0..rows {
        words[row(at)][C] = before[row(at)][C];
    }
}

#[test]
fn replays_follow_the_four_steps() {
    let mut rng = Rng::new(19);
    let (mut ran, mut past_end, mut used) = (0, 0, 0);
    for _ in 0..4_000 {
        let mut words = state(&mut rng);
        let n = rng.below(200);
        let jobs = releases(&words, n as u32, usize::MAX);
        let lengths = log(&mut rng, &jobs);
        let mut expected = words.clone();
        let replayed = replay_words(&mut words, n as u32, &lengths);
        if expected[1] + n > CLOCK_END {
            past_end += 1;
            assert_eq!(replayed.answer, Answer::refused(15));
        } else {
            ran += 1;
            used += jobs.len();
            assert_eq!(replayed.answer, Answer::accepted(n));
            assert_eq!(replayed.used, jobs.len() as u64);
            let mut numbers = lengths.iter().copied();
            for _ in 0..n {
                replayed_literally(&mut expected, &mut numbers);
            }
        }
        assert_eq!(words, expected);
        assert!(well_formed_literally(&words));
    }
    assert!(ran > 2_000 && past_end > 50, "{ran} and {past_end}");
    assert!(used > 50_000, "{used}");
}
