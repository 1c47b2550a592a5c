//! "Run with measured job lengths" (document 02, 5/14).
//!
//! Every case goes through three: the replay, the one that looks at the waits first, and
//! the rule, which lists all releases before a tick is run.

#[path = "replay/by_hand.rs"]
mod by_hand;
#[path = "replay/drawn.rs"]
mod drawn;
#[path = "replay/laws.rs"]
mod laws;
#[path = "replay/promise.rs"]
mod promise;
#[path = "replay/refusals.rs"]
mod refusals;

use peer::brute;
use peer::dispatch::{fresh_words, from_words, replay_plain, replay_words, to_words};

/// P5 of document 01.
const P5: [u32; 14] = [11, 2, 4, 4, 1, 2, 0, 12, 4, 6, 6, 2, 3, 0];

fn fresh(table: &[u32]) -> Vec<u64> {
    let mut words = vec![0; 643];
    assert!(fresh_words(table, &mut words).is_accepted());
    words
}

/// Refusal, value and used, on which all three agree; so they do on the state, which a
/// refusal leaves as it was.
fn replayed(words: &mut [u64], n: u32, log: &[u32]) -> (u64, u64, u64) {
    let before = words.to_vec();
    let replayed = replay_words(words, n, log);
    let mut by_rule = before.clone();
    assert_eq!(
        brute::replay::replay(&mut by_rule, n, log),
        replayed,
        "{n} ticks, log {log:?}, {before:?}"
    );
    assert_eq!(by_rule, words, "{n} ticks, log {log:?}, {before:?}");
    if let Some(mut state) = from_words(&before) {
        assert_eq!(replay_plain(&mut state, n, log), replayed);
        assert_eq!(to_words(&state).as_slice(), words);
    }
    if !replayed.answer.is_accepted() {
        assert_eq!(before, words);
        assert_eq!(replayed.used, 0);
    }
    let answer = replayed.answer;
    (answer.refusal, answer.value, replayed.used)
}

/// The same on a state that is not needed afterwards.
fn answered(words: &[u64], n: u32, log: &[u32]) -> (u64, u64, u64) {
    replayed(&mut words.to_vec(), n, log)
}
