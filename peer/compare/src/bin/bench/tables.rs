//! The tables that the programs are timed on, and the states that their runs begin in.

use compare::draw::{full_table, Patterns, Shape};
use compare::ffi;
use peer::dispatch::STATE_WORDS;
use peer::pattern::EVEN;
use peer::rng::Rng;
use peer::table::{ROW_WORDS, WORD_MAX};

/// Tables of each shape.
pub const TABLES: usize = 8;

/// Ticks of one run, for each of the tables.
pub const TICKS: u32 = 100_000;

/// Rows of the tables for fresh states, for well-formed ones and the long run.
pub const ROWS: usize = 8;

/// The words of a state.
pub type Saved = [u64; STATE_WORDS];

/// Tables of even rows admitted with no unit of work to spare, no deadline above
/// `d_max`.
pub fn tables(rng: &mut Rng, rows: usize, d_max: u32) -> Vec<Vec<u32>> {
    tables_of(rng, rows, d_max, Patterns::Even)
}

pub fn tables_of(rng: &mut Rng, rows: usize, d_max: u32, patterns: Patterns) -> Vec<Vec<u32>> {
    let shape = Shape {
        rows,
        t_low: d_max / 10,
        t_high: d_max,
    };
    let table = |_| full_table(rng, shape, patterns);
    (0..TABLES).map(table).collect()
}

/// Tables as above with periods of 20,000 ticks and more, and D of the last row, which
/// has all others above it, 65,535: a handful of stretches for each row.
pub fn long_periods(rng: &mut Rng, rows: usize) -> Vec<Vec<u32>> {
    let shape = Shape {
        rows,
        t_low: 20_000,
        t_high: WORD_MAX,
    };
    let table = |_| {
        let mut words = full_table(rng, shape, Patterns::Drawn);
        let last = words.len() - ROW_WORDS;
        words[last + 2..last + 4].fill(WORD_MAX);
        words
    };
    (0..TABLES).map(table).collect()
}

/// A table in which row 0 has a job in each tick, one of 64 mandatory, and the others D
/// of 65,535 and most of the ticks between them: a stretch to each tick, and for the
/// lower rows most of them must be looked at.
pub fn every_tick(rows: usize) -> Vec<Vec<u32>> {
    let mut words = vec![1, 1, 1, 1, 1, 64, EVEN];
    let c = 64_000 / rows as u32;
    for id in 2..=rows as u32 {
        words.extend([id, c, WORD_MAX, WORD_MAX, 1, 1, EVEN]);
    }
    vec![words]
}

/// Tables of even rows with periods from 4 to 40 ticks for each row: jobs are released
/// neither in every tick nor seldom.
pub fn busy_tables(rng: &mut Rng, rows: usize) -> Vec<Vec<u32>> {
    tables(rng, rows, 40 * rows as u32)
}

/// The first program's fresh states.
pub fn begun(tables: &[Vec<u32>]) -> Vec<Saved> {
    let state = |words: &Vec<u32>| {
        let mut room = [0; STATE_WORDS];
        ffi::fresh(words, &mut room);
        room
    };
    tables.iter().map(state).collect()
}
