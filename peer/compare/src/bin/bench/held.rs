//! The frame question: the number of met marks of every row of a full table.

use std::hint::black_box;

use compare::ffi;
use peer::answer::Answer;
use peer::brute::held::met_among;
use peer::counts::{held_counted_words, held_words, COUNT_WORDS};
use peer::dispatch::{HEAD_WORDS, HELD, SAVED_ROW_WORDS, WINDOW};
use peer::pattern::K_MAX;
use peer::rng::Rng;
use peer::table::ROWS_MAX;

use super::states::underway;
use super::tables::{Saved, TABLES};
use super::timing::{line, line_beside};

/// Rows asked about in one pass.
const ASKED: usize = TABLES * ROWS_MAX;

/// The second program's question is called, not inlined, as the first one's is.
#[inline(never)]
fn stored(state: &[u64], row: u32) -> Answer {
    held_words(state, row)
}

/// The question as it was answered before, from the window's word at once.
#[inline(never)]
fn counted(state: &[u64], row: u32) -> Answer {
    held_counted_words(state, row)
}

/// The same, mark by mark: the rule that the comparisons lay beside it.
#[inline(never)]
fn mark_by_mark(state: &[u64], row: u32) -> Answer {
    let at = HEAD_WORDS + row as usize * SAVED_ROW_WORDS;
    Answer::accepted(met_among(state[at + WINDOW], state[at + 5] as u32).into())
}

/// The counts of the row, with which the first program could be asked before.
fn counts(state: &[u64], row: u32) -> [u64; COUNT_WORDS] {
    let mut room = [0; COUNT_WORDS];
    ffi::counts(state, row, &mut room);
    room
}

/// States in the midst of a run, with windows as they are and with drawn ones of 64
/// marks, so that there are both many met marks and few.
fn states(rng: &mut Rng) -> Vec<Saved> {
    let mut states = underway(rng, ROWS_MAX);
    for state in states.iter_mut().step_by(2) {
        let (saved, _) = state[HEAD_WORDS..].as_chunks_mut::<SAVED_ROW_WORDS>();
        for row in saved {
            let window = rng.bits() & rng.bits();
            row[5] = K_MAX.into();
            row[WINDOW] = window;
            row[HELD] = window.count_ones().into();
        }
    }
    states
}

/// A copy for each of the questions, so that none is called by a pointer.
fn ask<A>(states: &[Saved], one: impl Fn(&[u64], u32) -> A) {
    for state in black_box(states) {
        for row in 0..ROWS_MAX as u32 {
            black_box(one(state, row));
        }
    }
}

/// Against the second program's stored number, its window counted at once and mark
/// by mark, and the first program's counts of the row.
pub fn all(rng: &mut Rng) -> bool {
    let states = states(rng);
    if !alike(&states) {
        return false;
    }
    let mut ours = || ask(&states, ffi::held);
    let name = "held_32_rows";
    line(name, ASKED, &mut ours, &mut || ask(&states, stored));
    let name = "held_32_rows_counting";
    line(name, ASKED, &mut ours, &mut || ask(&states, counted));
    let name = "held_32_rows_mark_by_mark";
    line(name, ASKED, &mut ours, &mut || ask(&states, mark_by_mark));
    let (name, other) = ("held_32_rows_beside_counts", "gp_counts");
    line_beside(name, ASKED, &mut ours, other, &mut || ask(&states, counts));
    true
}

/// Whether the four numbers of met marks are one in every row, and the states such
/// that the counts are given.
fn alike(states: &[Saved]) -> bool {
    for state in states {
        for row in 0..ROWS_MAX as u32 {
            let ours = ffi::held(state, row);
            let peer = [stored, counted, mark_by_mark].map(|one| one(state, row));
            if peer != [ours; 3] || !ffi::well(state).is_accepted() {
                println!("bench held row {row} {state:?} ours {ours:?} peer {peer:?}");
                return false;
            }
        }
    }
    true
}
