//! "Tell the planner how much room a row has" (document 02, 7/14): by a walk over every
//! tick, from stretch to stretch, and by leaps.

mod leaps;
mod steps;

pub use leaps::{room_by_leaps, rooms_by_leaps, verdict_by_room_leaps};
pub use steps::{room_by_steps, rooms_by_steps, verdict_by_steps};

use crate::answer::Answer;
use crate::table::{Table, TaskRow};
use crate::verdict::{brought, in_words, judged, load_above, response_leaping};

/// "the largest value, over t from 1 to D, of t less the load that rows above bring by
/// t, or 0 if that is never positive." Every t is walked, and the load worked out anew.
///
/// A row that the table does not have has no room.
pub fn room(table: &Table, row: usize) -> u32 {
    let d = table.rows().get(row).map_or(0, |own| own.d);
    let less = |t: u32| u64::from(t).saturating_sub(load_above(table, row, t));
    // None is more than its t, so the largest is at most D.
    (1..=d).map(less).max().unwrap_or(0) as u32
}

/// The same figure, from the end of one stretch to that of the one before it.
///
/// The load that the rows above bring grows only past a tick at which one of them
/// releases a job. From there to the next such tick it stays as it is, and t less the
/// load is largest at the end. The ends are D and the releases before it; from D down
/// they need not all be looked at, as no tick up to t leaves more than t.
pub fn room_by_stretches(table: &Table, row: usize) -> u32 {
    let rows = table.rows();
    let Some(own) = rows.get(row) else {
        return 0;
    };
    let (mut t, mut best) = (own.d, 0);
    while t > best {
        let (load, start) = stretch(&rows[..row], t);
        // What is left is at most t.
        best = best.max(u64::from(t).saturating_sub(load) as u32);
        t = start;
    }
    best
}

/// The load that rows bring by t, and where the stretch that ends at t starts: the
/// latest tick before t at which one of them releases a job, 0 where there are none.
fn stretch(above: &[TaskRow], t: u32) -> (u64, u32) {
    let (mut load, mut start) = (0, 0);
    for row in above {
        // "q = ceil(t / T)"; t is at least 1, and so is q.
        let q = t.div_ceil(row.t);
        load += u64::from(row.c) * row.pattern().count(q);
        start = start.max((q - 1) * row.t);
    }
    (load, start)
}

/// What one walk over every tick finds of a row.
#[derive(Clone, Copy, Default)]
struct Found {
    room: u32,
    /// The first tick that fits.
    response: Option<u32>,
}

impl Found {
    /// At t, a tick up to the row's D, by which the rows above bring this load.
    fn look(&mut self, row: &TaskRow, t: u32, above: u64) {
        let left = u64::from(t).saturating_sub(above) as u32;
        self.room = self.room.max(left);
        if self.response.is_none() && row.c <= left {
            self.response = Some(t);
        }
    }
}

/// Every row of a table in one walk over every tick. What the rows bring is added up
/// from row 0 down, so that the sum so far is what the rows above bring.
fn walked(table: &Table) -> Vec<Found> {
    let rows = table.rows();
    let last = rows.iter().map(|row| row.d).max().unwrap_or(0);
    let mut found = vec![Found::default(); rows.len()];
    for t in 1..=last {
        let mut above = 0;
        for (row, found) in rows.iter().zip(&mut found) {
            if t <= row.d {
                found.look(row, t, above);
            }
            above += brought(row, t);
        }
    }
    found
}

/// The rooms of all rows into the lent words, one per row, words after them untouched.
/// The refusals are those of the table, and then 13; a table that the verdict turns
/// down has its rooms too. The value is the number of rows.
pub fn rooms(words: &[u32], room: &mut [u32]) -> Answer {
    laid(words, room, |table, room| {
        for (word, found) in room.iter_mut().zip(walked(table)) {
            *word = found.room;
        }
    })
}

/// The same answers, from stretch to stretch.
pub fn rooms_by_stretches(words: &[u32], room: &mut [u32]) -> Answer {
    laid(words, room, |table, room| {
        for (row, word) in room.iter_mut().enumerate() {
            *word = room_by_stretches(table, row);
        }
    })
}

/// Lets the figures of a well-formed table be laid into as many words as it has rows.
pub(crate) fn laid(
    words: &[u32],
    room: &mut [u32],
    lay: impl FnOnce(&Table, &mut [u32]),
) -> Answer {
    in_words(words, room, |table, room| {
        lay(table, room);
        Answer::accepted(room.len() as u64)
    })
}

/// The verdict that asks for the room first: "A row fits exactly when its C is at most
/// its room." Its response time is then found by leaps.
pub fn verdict_by_rooms(words: &[u32], room: &mut [u32]) -> Answer {
    by_rooms(words, room, room_by_stretches)
}

fn by_rooms(words: &[u32], room: &mut [u32], room_of: impl Fn(&Table, usize) -> u32) -> Answer {
    judged(words, room, |table, row| {
        let fits = table.rows().get(row)?.c <= room_of(table, row);
        fits.then(|| response_leaping(table, row)).flatten()
    })
}

/// The same answers by one walk over every tick.
pub fn verdict_by_rooms_walking(words: &[u32], room: &mut [u32]) -> Answer {
    let mut all = None;
    judged(words, room, |table, row| {
        let all = all.get_or_insert_with(|| walked(table));
        let (own, found) = (table.rows().get(row)?, all.get(row)?);
        (own.c <= found.room).then_some(found.response).flatten()
    })
}
