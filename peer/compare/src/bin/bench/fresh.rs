//! The fresh state of a table, and whether words are a well-formed state.

use std::hint::black_box;

use compare::ffi;
use peer::answer::Answer;
use peer::dispatch::{fresh_words, well_formed_words, STATE_WORDS};
use peer::rng::Rng;

use super::tables::{begun, busy_tables, ROWS, TABLES, TICKS};
use super::timing::line;

/// The fresh state of a table, into a room of its length.
pub fn fresh(rng: &mut Rng) -> bool {
    let tables = busy_tables(rng, ROWS);
    let laid = |lay: &dyn Fn(&[u32], &mut [u64]) -> Answer, words: &[u32]| {
        let mut room = [1; STATE_WORDS];
        (lay(words, &mut room), room)
    };
    for words in &tables {
        let (ours, peer) = (laid(&ffi::fresh, words), laid(&fresh_words, words));
        if ours != peer || !ours.0.is_accepted() {
            println!("bench fresh {words:?} ours {ours:?} peer {peer:?}");
            return false;
        }
    }
    let (mut room, mut peer_room) = ([0; STATE_WORDS], [0; STATE_WORDS]);
    let mut ours = || {
        for words in black_box(&tables) {
            black_box((ffi::fresh(words, &mut room), &room));
        }
    };
    let mut peer = || {
        for words in black_box(&tables) {
            black_box((fresh_words(words, &mut peer_room), &peer_room));
        }
    };
    line("fresh", TABLES, &mut ours, &mut peer);
    true
}

/// Whether words are a well-formed state, as these are after a run.
pub fn well(rng: &mut Rng) -> bool {
    let mut states = begun(&busy_tables(rng, ROWS));
    for state in &mut states {
        ffi::run(state, TICKS);
        let (ours, peer) = (ffi::well(state), well_formed_words(state));
        if ours != peer || !ours.is_accepted() {
            println!("bench well {state:?} ours {ours:?} peer {peer:?}");
            return false;
        }
    }
    let mut ours = || {
        for state in black_box(&states) {
            black_box(ffi::well(state));
        }
    };
    let mut peer = || {
        for state in black_box(&states) {
            black_box(well_formed_words(state));
        }
    };
    line("well", TABLES, &mut ours, &mut peer);
    true
}
