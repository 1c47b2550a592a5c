//! The stretches without a division to each of them: every row above keeps the latest
//! job that it has released, and steps back to the one before.

use super::{by_rooms, laid};
use crate::answer::Answer;
use crate::table::{Table, TaskRow, ROWS_MAX};

/// The latest job that a row releases before the tick that was reached.
#[derive(Clone, Copy, Default)]
struct Latest {
    /// The tick of its release, and its place in the row's pattern.
    at: u32,
    place: u32,
    /// The row's C, T and k, and its pattern: bit a is set when job a is mandatory.
    c: u32,
    t: u32,
    k: u32,
    word: u64,
}

impl Latest {
    /// The latest job released before t, which is at least 1.
    fn before(row: &TaskRow, t: u32) -> Latest {
        let job = (t - 1) / row.t;
        Latest {
            at: job * row.t,
            place: job % row.k,
            c: row.c,
            t: row.t,
            k: row.k,
            word: row.pattern().word(),
        }
    }

    /// Steps back to the job before, and gives the work that this one brought. Job 0
    /// has none before it: it is never asked for.
    fn step(&mut self) -> u64 {
        let work = match self.word >> self.place & 1 {
            1 => u64::from(self.c),
            _ => 0,
        };
        self.at -= self.t;
        self.place = self.place.checked_sub(1).unwrap_or(self.k - 1);
        work
    }
}

/// The room of a row, as [`super::room_by_stretches`] has it.
pub fn room_by_steps(table: &Table, row: usize) -> u32 {
    let Some(own) = table.rows().get(row) else {
        return 0;
    };
    let (mut t, mut best) = (own.d, 0);
    let mut all = [Latest::default(); ROWS_MAX];
    let above = &mut all[..row];
    for (latest, row) in above.iter_mut().zip(table.rows()) {
        *latest = Latest::before(row, t);
    }
    let mut load = super::load_above(table, row, t);
    loop {
        best = best.max(u64::from(t).saturating_sub(load) as u32);
        t = above.iter().map(|latest| latest.at).max().unwrap_or(0);
        if t <= best {
            return best;
        }
        for latest in above.iter_mut().filter(|latest| latest.at == t) {
            load -= latest.step();
        }
    }
}

/// The rooms of all rows, as [`super::rooms`] has them.
pub fn rooms_by_steps(words: &[u32], room: &mut [u32]) -> Answer {
    laid(words, room, |table, room| {
        for (row, word) in room.iter_mut().enumerate() {
            *word = room_by_steps(table, row);
        }
    })
}

/// The verdict that asks for the room first.
pub fn verdict_by_steps(words: &[u32], room: &mut [u32]) -> Answer {
    by_rooms(words, room, room_by_steps)
}
