//! The same figure by leaps, as a response time is found by them.

use super::{judged, laid, load_above, response_leaping};
use crate::answer::Answer;
use crate::table::{Table, TaskRow};

/// The room of a row, as [`super::room_by_stretches`] has it.
///
/// What D itself leaves is often the most, or nearly. For more than the best so far, t
/// must be past the load and the best together; the load never falls as t grows, so no
/// tick before their sum will do. Where one does, the end of its stretch does best.
pub fn room_by_leaps(table: &Table, row: usize) -> u32 {
    room_from(table, row, 1)
}

/// The same where no tick before the first to be looked at leaves more than it does.
fn room_from(table: &Table, row: usize, first: u32) -> u32 {
    let rows = table.rows();
    let Some(own) = rows.get(row) else {
        return 0;
    };
    let (mut t, d) = (u64::from(first), u64::from(own.d));
    let mut best = d.saturating_sub(load_above(table, row, own.d));
    while t <= d {
        let load = load_above(table, row, t as u32);
        if load + best < t {
            t = stretch_end(&rows[..row], t as u32).min(d);
            best = t - load;
        }
        t = load + best + 1;
    }
    best as u32
}

/// The first tick from t on at which a row releases a job; its load is still that at t.
fn stretch_end(above: &[TaskRow], t: u32) -> u64 {
    let releases = above.iter().map(|row| t.div_ceil(row.t) * row.t);
    releases.min().map_or(u64::MAX, u64::from)
}

/// The rooms of all rows, as [`super::rooms`] has them.
pub fn rooms_by_leaps(words: &[u32], room: &mut [u32]) -> Answer {
    laid(words, room, |table, room| {
        for (row, word) in room.iter_mut().enumerate() {
            *word = room_by_leaps(table, row);
        }
    })
}

/// The verdict by a search that answers a row's response time and then its room: a tick
/// before the first that fits leaves less than C, so the room is sought from there on.
pub fn verdict_by_room_leaps(words: &[u32], room: &mut [u32]) -> Answer {
    judged(words, room, |table, row| {
        let response = response_leaping(table, row);
        let room = room_from(table, row, response.unwrap_or(1));
        let fits = table.rows().get(row)?.c <= room;
        fits.then_some(response).flatten()
    })
}
