//! The room of every row without a formula: every tick is gone through, and the jobs of
//! the rows above are counted as they are released, one by one.

use super::verdict::Released;
use crate::answer::Answer;
use crate::rooms::laid;
use crate::table::Table;

/// "the largest value, over t from 1 to D, of t less the load that rows above bring by
/// t, or 0 if that is never positive", into a word for each row.
fn lay(table: &Table, rooms: &mut [u32]) {
    let tasks = table.rows();
    let mut released: Vec<Released> = tasks.iter().map(Released::new).collect();
    for t in 1..=tasks.iter().map(|task| task.d).max().unwrap_or(0) {
        // The work of the rows so far, which are those above the next.
        let mut above = 0;
        for ((task, released), room) in tasks.iter().zip(&mut released).zip(&mut *rooms) {
            let left = i64::from(t) - above;
            if t <= task.d && left > i64::from(*room) {
                *room = left as u32;
            }
            above += released.by(t) as i64;
        }
    }
}

/// The rooms of the words, if they are a table, written to the lent room.
pub fn rooms(words: &[u32], room: &mut [u32]) -> Answer {
    laid(words, room, |table, rooms| {
        rooms.fill(0);
        lay(table, rooms);
    })
}
