//! The state: what is kept for each row, and how it begins.

use super::window::marks;
use crate::answer::Answer;
use crate::table::{Table, TaskRow, ROWS_MAX};

/// "The clock ends at 4,294,967,295."
pub const CLOCK_END: u32 = u32::MAX;

/// Everything kept for one task: "Everything kept for a task goes with its row
/// and id inside one state".
#[derive(Clone, Copy, Debug, Default, PartialEq, Eq)]
pub struct Row {
    pub id: u32,
    pub c: u32,
    pub t: u32,
    pub d: u32,
    pub m: u32,
    pub k: u32,
    /// "0 for even, 1 for deeply-red" (document 02, 3/14)
    pub p: u32,
    /// "ticks until its next release (wait)"
    pub wait: u32,
    /// "the next job's place in its pattern"
    pub place: u32,
    /// "the live job's work left"
    pub work: u32,
    /// "ticks left to its deadline"
    pub left: u32,
    /// 1 for a live mandatory job, otherwise 0
    pub kind: u32,
    /// "the newest mark is bit 0, 1 for met"
    pub window: u64,
    pub released: u32,
    /// mandatory met
    pub mm: u32,
    /// mandatory missed
    pub mx: u32,
    /// optional met
    pub om: u32,
    /// optional missed
    pub ox: u32,
    /// "broken windows"
    pub broken: u32,
    /// "the number of met marks" that the window holds (document 02, 2/14)
    pub held: u32,
}

/// "A state at time t holds the table, the time, the idle count and for each
/// row" what [`Row`] holds. Rows past the last are all zero.
#[derive(Clone, Debug, PartialEq, Eq)]
pub struct State {
    pub rows: u32,
    pub time: u32,
    pub idle: u32,
    pub row: [Row; ROWS_MAX],
}

/// "Fresh: time 0, idle 0, wait 0, place 0, nothing live, counts 0, window of k
/// met marks standing for jobs before the first." Refused with the table's
/// refusals.
pub fn fresh(words: &[u32]) -> Result<State, Answer> {
    let table = Table::of(words)?;
    let mut state = State {
        rows: table.rows().len() as u32,
        time: 0,
        idle: 0,
        row: [Row::default(); ROWS_MAX],
    };
    for (row, task) in state.row.iter_mut().zip(table.rows()) {
        *row = Row::fresh(task);
    }
    Ok(state)
}

impl Row {
    fn fresh(task: &TaskRow) -> Row {
        Row {
            id: task.id,
            c: task.c,
            t: task.t,
            d: task.d,
            m: task.m,
            k: task.k,
            p: task.p,
            window: marks(task.k),
            held: task.k,
            ..Row::default()
        }
    }

    pub(super) fn task(&self) -> TaskRow {
        TaskRow {
            id: self.id,
            c: self.c,
            t: self.t,
            d: self.d,
            m: self.m,
            k: self.k,
            p: self.p,
        }
    }

    /// The four settled counts together.
    pub fn settled(&self) -> u64 {
        let counts = [self.mm, self.mx, self.om, self.ox];
        counts.iter().map(|&count| u64::from(count)).sum()
    }

    /// "a live job (work left above 0)"
    pub fn is_live(&self) -> bool {
        self.work > 0
    }
}
