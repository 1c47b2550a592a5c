//! The verdict without a formula: every tick from 1 to D is gone through, and the
//! jobs of the rows above are counted as they are released, one by one.

use super::pattern::is_mandatory;
use crate::answer::Answer;
use crate::table::{Table, TaskRow};
use crate::verdict::judged;

/// The jobs of one row that are released before the tick count that was reached.
pub(super) struct Released {
    task: TaskRow,
    /// The next job, and the tick of its release: "job a of a task is released at tick
    /// a x T".
    job: u32,
    at: u32,
    /// C of every mandatory one so far.
    work: u64,
}

impl Released {
    pub(super) fn new(task: &TaskRow) -> Released {
        Released {
            task: *task,
            job: 0,
            at: 0,
            work: 0,
        }
    }

    /// The work of the jobs released before t, which is at most one more than at the
    /// last call.
    pub(super) fn by(&mut self, t: u32) -> u64 {
        while self.at < t {
            if is_mandatory(self.task.pattern(), self.job) {
                self.work += u64::from(self.task.c);
            }
            self.job += 1;
            self.at += self.task.t;
        }
        self.work
    }
}

/// "The row fits when some t from 1 to D has a load of at most t", and the first such t
/// is its response time.
pub fn response(table: &Table, row: usize) -> Option<u32> {
    let own = table.rows().get(row)?;
    let mut above: Vec<Released> = table.rows()[..row].iter().map(Released::new).collect();
    (1..=own.d).find(|&t| {
        let work = above.iter_mut().map(|row| row.by(t));
        u64::from(own.c) + work.sum::<u64>() <= u64::from(t)
    })
}

/// The verdict on the words, its response times written to the room.
pub fn verdict(words: &[u32], room: &mut [u32]) -> Answer {
    judged(words, room, response)
}
