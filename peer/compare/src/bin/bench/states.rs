//! Single ticks, and the counts of a row.

use std::hint::black_box;

use compare::ffi;
use peer::answer::Answer;
use peer::counts::{counts_words, COUNT_WORDS};
use peer::dispatch::{from_words, tick, tick_words, to_words, State};
use peer::dispatch::{HEAD_WORDS, HELD, SAVED_ROW_WORDS, WINDOW};
use peer::pattern::K_MAX;
use peer::rng::Rng;

use super::red::each_way;
use super::tables::{begun, busy_tables, Saved, ROWS, TABLES, TICKS};
use super::timing::line;

/// Single ticks of each of the tables.
const SINGLE: usize = 200;

/// States in the midst of a run.
pub fn underway(rng: &mut Rng, rows: usize) -> Vec<Saved> {
    underway_of(&busy_tables(rng, rows))
}

pub fn underway_of(tables: &[Vec<u32>]) -> Vec<Saved> {
    let mut states = begun(tables);
    for state in &mut states {
        ffi::run(state, TICKS);
    }
    states
}

/// Calls of a single tick, each of which looks at the whole state first: against
/// the second program on a state of its own form, and on the same words.
///
/// As the runs, the tables are even, then deeply-red, then mixed.
pub fn single_ticks(rng: &mut Rng, rows: usize) -> bool {
    let tables = busy_tables(rng, rows);
    let alike = |(of, tables): (&str, Vec<Vec<u32>>)| {
        let name = format!("single_tick_{rows}_rows{of}");
        timed_single(&name, &underway_of(&tables))
    };
    each_way(tables).into_iter().all(alike)
}

fn timed_single(name: &str, starts: &[Saved]) -> bool {
    let own = starts.iter().map(|words| from_words(words));
    let Some(own) = own.collect::<Option<Vec<State>>>() else {
        println!("bench single_tick no states");
        return false;
    };
    timed_ticks(name, starts, &own, tick, to_words)
        && timed_ticks(
            &format!("{name}_words"),
            starts,
            starts,
            |words| tick_words(words),
            |words| *words,
        )
}

/// Times both from the same states, and compares those they end in.
fn timed_ticks<S: Clone>(
    name: &str,
    starts: &[Saved],
    peer_starts: &[S],
    peer: impl Fn(&mut S) -> Answer,
    saved: impl Fn(&S) -> Saved,
) -> bool {
    let (mut states, mut peer_states) = (starts.to_vec(), peer_starts.to_vec());
    let mut ours = || {
        states.copy_from_slice(black_box(starts));
        for state in &mut states {
            for _ in 0..SINGLE {
                black_box(ffi::tick(state));
            }
        }
    };
    let mut theirs = || {
        peer_states.clone_from_slice(black_box(peer_starts));
        for state in &mut peer_states {
            for _ in 0..SINGLE {
                black_box(peer(state));
            }
        }
    };
    line(name, TABLES * SINGLE, &mut ours, &mut theirs);
    let time = u64::from(TICKS) + SINGLE as u64;
    let ended = |(ours, peer): (&Saved, &S)| ours[1] == time && *ours == saved(peer);
    let alike = states.iter().zip(&peer_states).all(ended);
    if !alike {
        println!("bench {name} the states differ, from {starts:?}");
    }
    alike
}

/// The counts of every row of states in the midst of a run.
pub fn counts(rng: &mut Rng) -> bool {
    timed_counts("counts", &underway(rng, ROWS))
}

/// The same where each row has a window of 64 marks, drawn, and an m that it
/// holds: the m-th met mark is anywhere in it.
pub fn counts_k_64(rng: &mut Rng) -> bool {
    let mut states = underway(rng, ROWS);
    for state in &mut states {
        let (saved, _) = state[HEAD_WORDS..].as_chunks_mut::<SAVED_ROW_WORDS>();
        for row in &mut saved[..ROWS] {
            let window = rng.bits();
            row[4] = rng.between(1, window.count_ones().into());
            row[5] = K_MAX.into();
            row[WINDOW] = window;
            row[HELD] = window.count_ones().into();
        }
    }
    timed_counts("counts_k_64", &states)
}

/// The counts of every row of the states, from the same words.
fn timed_counts(name: &str, states: &[Saved]) -> bool {
    let (mut room, mut peer_room) = ([0; COUNT_WORDS], [0; COUNT_WORDS]);
    for state in states {
        for row in 0..ROWS as u32 {
            let ours = ffi::counts(state, row, &mut room);
            let peer = counts_words(state, row, &mut peer_room);
            if ours != peer || !ours.is_accepted() || room != peer_room {
                println!("bench {name} {row} {state:?} ours {room:?} peer {peer_room:?}");
                return false;
            }
        }
    }
    let mut ours = || {
        for state in black_box(states) {
            for row in 0..ROWS as u32 {
                black_box((ffi::counts(state, row, &mut room), &room));
            }
        }
    };
    let mut peer = || {
        for state in black_box(states) {
            for row in 0..ROWS as u32 {
                black_box((counts_words(state, row, &mut peer_room), &peer_room));
            }
        }
    };
    line(name, TABLES * ROWS, &mut ours, &mut peer);
    true
}
