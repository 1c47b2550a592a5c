//! When a state offered by a caller is well formed.

use super::window::marks;
use super::{Row, State};
use crate::table::{self, ROWS_MAX, ROW_WORDS};

impl Row {
    /// "the released count is at most the time and equals the four settled
    /// counts plus one if a job is live, and the broken count is at most the
    /// sum of those four"
    fn counts_well_formed(&self, time: u32) -> bool {
        self.released <= time
            && u64::from(self.released) == self.settled() + u64::from(self.is_live())
            && u64::from(self.broken) <= self.settled()
    }

    /// "a live job (work left above 0) has 1 to wait ticks left to its deadline
    /// and kind 1 if mandatory, 0 if optional, and a row without one has
    /// deadline and kind 0"
    fn job_well_formed(&self) -> bool {
        if self.is_live() {
            1 <= self.left && self.left <= self.wait && self.kind <= 1
        } else {
            self.left == 0 && self.kind == 0
        }
    }

    /// What is asked of a row once its table is known to be well formed: "wait
    /// is 0..T-1; the place is below k; the work left is 0..C" and "window bits
    /// from k up are clear"; and "a caller's state in which it isn't true is not
    /// well formed", the number of met marks (document 02, 2/14).
    fn well_formed(&self, time: u32) -> bool {
        self.counts_well_formed(time)
            && self.wait < self.t
            && self.place < self.k
            && self.work <= self.c
            && self.job_well_formed()
            && self.window & !marks(self.k) == 0
            && self.held == self.window.count_ones()
    }
}

/// "A state offered by a caller is well formed when its table is; time is at
/// most the clock's end; idle is at most the time; for each row .. ; rows past
/// the last are all zero. Nothing else is asked".
///
/// The time of a [`State`] cannot be past the clock's end; [`super::from_words`]
/// turns such a time away.
pub fn well_formed(state: &State) -> bool {
    let rows = state.rows as usize;
    if rows > ROWS_MAX {
        return false;
    }
    let (kept, past) = state.row.split_at(rows);
    table_well_formed(kept)
        && state.idle <= state.time
        && kept.iter().all(|row| row.well_formed(state.time))
        && past.iter().all(|row| *row == Row::default())
}

/// The state's own table, judged as any other table is.
fn table_well_formed(rows: &[Row]) -> bool {
    let mut words = [0; ROWS_MAX * ROW_WORDS];
    let (sevens, _) = words.as_chunks_mut::<ROW_WORDS>();
    for (seven, row) in sevens.iter_mut().zip(rows) {
        *seven = row.task().words();
    }
    table::check(&words[..rows.len() * ROW_WORDS]).is_accepted()
}
