//! The number of met marks (document 02, 2/14): a state in which it is not true is
//! refused by whatever takes a whole state, and the frame question gives it as it
//! stands.

mod asked;
mod old;
mod untrue;

use peer::answer::Answer;
use peer::brute::held;
use peer::counts::COUNT_WORDS;
use peer::dispatch::{fresh_words, run_words, well_formed_words};
use peer::dispatch::{HEAD_WORDS, HELD, SAVED_ROW_WORDS, STATE_WORDS, WINDOW};
use peer::rng::Rng;
use peer::table::ROW_WORDS;

use super::counts::same_counts;
use super::dispatch::{same_call, Call};
use super::Comparison;
use crate::course::{shown, Compared, Course, Difference};
use crate::draw::{sound, state_room_of, ticks};

pub const ALL: &[Comparison] = &[
    Comparison::drawn("held_untrue_numbers", &[0, 14], untrue::numbers),
    Comparison::drawn("held_untrue_windows", &[0, 14, 15], untrue::windows),
    Comparison::drawn("held_old_states", &[14], old::states),
    Comparison::drawn("held_old_padded", &[0, 14], old::padded),
    Comparison::drawn("held_asked_runs", &[0], asked::runs),
    Comparison::drawn("held_asked_damaged", &[0, 14], asked::damaged),
    Comparison::drawn("held_asked_bits", &[0, 14], asked::bits),
    Comparison::drawn("held_asked_lengths", &[0, 14], asked::lengths),
    Comparison::drawn("held_asked_rows", &[0, 14], asked::rows),
];

/// Periods of the tables, and the most ticks before a state is looked at: enough
/// for jobs of every row to have been settled.
const T_MAX: u32 = 40;
const TICKS: u32 = 200;

/// The most ticks of a run that is not refused.
const MOST: u32 = 8;

/// "Each tick, run and fresh state keeps it true": if not, the first row of it.
pub fn kept_true(words: &[u64]) -> Result<(), String> {
    held::untrue(words).map_or(Ok(()), |(row, kept, met)| {
        Err(format!("row {row}: held {kept}, met in the window {met}"))
    })
}

/// A row of a state of so many rows.
#[derive(Clone, Copy)]
struct Place {
    rows: usize,
    row: usize,
}

impl Place {
    const fn new(rows: usize, row: usize) -> Place {
        Place { rows, row }
    }

    /// Where a word of the row stands in the saved state.
    fn at(self, word: usize) -> usize {
        HEAD_WORDS + self.row * SAVED_ROW_WORDS + word
    }

    /// A state in the midst of a run, in which the row has this k.
    fn state(self, rng: &mut Rng, k: u32) -> Vec<u64> {
        let mut table = sound(rng, self.rows, T_MAX);
        let pair = [rng.word(1, k), k];
        table[self.row * ROW_WORDS + 4..][..2].copy_from_slice(&pair);
        let mut words = vec![0; STATE_WORDS];
        fresh_words(&table, &mut words);
        run_words(&mut words, rng.word(0, TICKS));
        words
    }

    /// Lays a window into the row, and its met marks with it.
    fn lay(self, words: &mut [u64], window: u64) {
        words[self.at(WINDOW)] = window;
        words[self.at(HELD)] = window.count_ones().into();
    }
}

/// Every function that takes a whole state: well formed or not, a tick, a run, the
/// counts of a row. `due` is what the rules say to the first of them; 14 is then
/// said by all of them, and no word is altered.
pub(super) fn same_whole(course: &mut Course, words: &[u64], row: usize, due: Answer) -> Compared {
    let peer = well_formed_words(words);
    if peer != due {
        let (peer, due) = (shown(peer), shown(due));
        let text = format!("the second program: {peer}, due {due}, on {words:?}");
        return Err(Difference(text));
    }
    let n = ticks(&mut course.rng, words, MOST);
    for call in [Call::Well, Call::Tick, Call::Run(n)] {
        same_call(course, words, call)?;
    }
    let room = state_room_of(&mut course.rng, COUNT_WORDS);
    same_counts(course, words, row as u32, &room)
}
