//! Tables of deeply-red rows, and of both patterns.

use compare::draw::Patterns;
use peer::dispatch::P;
use peer::pattern::{EVEN, RED};
use peer::rng::Rng;
use peer::table::ROW_WORDS;

use super::tables::tables_of;
use super::verdicts::timed_verdicts;

/// Rows of the tables for the verdict.
const ROWS: usize = 16;

/// Verdicts and rooms of tables of deeply-red rows, admitted with no unit of work to spare. A
/// copy draws for them, so that the tables of the other lines stay as they are.
pub fn verdicts(rng: &Rng) -> bool {
    [2_000, 65_535].into_iter().all(|d_max| {
        let tables = tables_of(&mut rng.clone(), ROWS, d_max, Patterns::Red);
        timed_verdicts(&format!("{ROWS}_rows_d_{d_max}_red"), &tables)
    })
}

/// The tables as they are, with every row deeply-red, and with every other row so; each
/// with what its lines are called by.
pub fn each_way(tables: Vec<Vec<u32>>) -> [(&'static str, Vec<Vec<u32>>); 3] {
    let with = |p: fn(usize) -> u32| {
        let mut tables = tables.clone();
        for (at, row) in tables
            .iter_mut()
            .flat_map(|words| words.chunks_exact_mut(ROW_WORDS).enumerate())
        {
            row[P] = p(at);
        }
        tables
    };
    let every_other = |at| if at % 2 == 0 { RED } else { EVEN };
    let (red, mixed) = (with(|_| RED), with(every_other));
    [("", tables), ("_red", red), ("_mixed", mixed)]
}
