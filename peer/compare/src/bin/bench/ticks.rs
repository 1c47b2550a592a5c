//! Ticks of runs from fresh, against the second program's two runs.

use std::hint::black_box;

use compare::ffi;
use peer::answer::Answer;
use peer::dispatch::{from_words, run, run_plain, to_words, State};
use peer::rng::Rng;

use super::red;
use super::tables::{begun, busy_tables, Saved, TABLES, TICKS};
use super::timing::line;

type Run = fn(&mut State, u32) -> Answer;

/// Ticks of a run from fresh, against the second program's plain loops and
/// against its bit sets, and the states they end in: of tables of even rows, of the
/// same with every row deeply-red, and with every other one.
pub fn ticks(rng: &mut Rng, rows: usize) -> bool {
    let tables = busy_tables(rng, rows);
    let peers: [(&str, Run); 2] = [("plain", run_plain), ("bitsets", run)];
    let alike = |(of, tables): (&str, Vec<Vec<u32>>)| {
        let starts = begun(&tables);
        peers.into_iter().all(|(how, peer)| {
            let name = format!("tick_{rows}_rows{of}_{how}");
            timed_ticks(&name, &starts, peer)
        })
    };
    red::each_way(tables).into_iter().all(alike)
}

fn timed_ticks(name: &str, starts: &[Saved], peer: Run) -> bool {
    let read = |words: &Saved| from_words(words);
    let Some(peer_starts) = starts.iter().map(read).collect::<Option<Vec<_>>>() else {
        println!("bench {name} no states");
        return false;
    };
    let (mut states, mut peer_states) = (starts.to_vec(), peer_starts.clone());
    let mut ours = || {
        states.copy_from_slice(black_box(starts));
        for state in &mut states {
            black_box(ffi::run(state, TICKS));
        }
    };
    let mut theirs = || {
        peer_states.clone_from_slice(black_box(&peer_starts));
        for state in &mut peer_states {
            black_box(peer(state, TICKS));
        }
    };
    line(name, TABLES * TICKS as usize, &mut ours, &mut theirs);
    let ended = |(state, peer): (&Saved, &State)| peer.time == TICKS && *state == to_words(peer);
    let alike = states.iter().zip(&peer_states).all(ended);
    if !alike {
        println!("bench {name} states {states:?} peer {peer_states:?}");
    }
    alike
}
