//! A state that keeps its own words.

use crate::saved::{HEAD_WORDS, ROW_WORDS};
use crate::{counts, fresh, held, replay, run, tick, well};
use crate::{Counts, Pattern, Refusal, Replayed, STATE_WORDS};

/// The words of a row of a state, in their order.
#[derive(Clone, Copy, Debug, PartialEq, Eq, Hash)]
pub enum Field {
    /// The task's id.
    Id,
    /// C, the work of a job.
    C,
    /// T, the ticks from release to release.
    T,
    /// D, the ticks from a release to its deadline.
    D,
    /// m of m out of k.
    M,
    /// k of m out of k.
    K,
    /// p, which names the pattern.
    P,
    /// Ticks until the next release.
    Wait,
    /// The next job's place in the pattern.
    Place,
    /// The live job's work left, 0 where none is live.
    Work,
    /// Ticks left to the live job's deadline, 0 where none is live.
    Left,
    /// 1 for a live mandatory job, otherwise 0.
    Kind,
    /// The last k marks, the newest in bit 0, 1 for met.
    Window,
    /// Jobs released.
    Released,
    /// Mandatory jobs met.
    Mm,
    /// Mandatory jobs missed.
    Mx,
    /// Optional jobs met.
    Om,
    /// Optional jobs missed.
    Ox,
    /// Settlings after which the window held fewer than m met marks.
    Broken,
    /// Met marks in the window.
    Held,
}

/// A running table. It comes from [`State::fresh`] or [`State::restore`] alone, so its words are a well-formed state at all times.
///
/// ```
/// use galleypoppy::{Refusal, State};
///
/// # fn main() -> Result<(), Refusal> {
/// let mut state = State::fresh(&[7, 1, 1, 1, 1, 1, 0])?;
/// state.run(10)?;
/// let kept = *state.words();
///
/// state.tick()?;
/// let mut again = State::restore(&kept)?;
/// again.tick()?;
/// assert_eq!(again, state);
/// # Ok(())
/// # }
/// ```
#[derive(Clone, Debug, PartialEq, Eq)]
pub struct State {
    words: [u64; STATE_WORDS],
}

impl State {
    /// The fresh state of a table, admitted or not.
    ///
    /// # Errors
    ///
    /// Refusals 1, 2, 3, then row by row 4 to 9 in number order, 16, 10.
    pub fn fresh(table: &[u32]) -> Result<State, Refusal> {
        let mut words = [0; STATE_WORDS];
        fresh(table, &mut words)?;
        Ok(State { words })
    }

    /// The state that saved words say. Words of an earlier version, 611 or 579 in number, are refused.
    ///
    /// # Errors
    ///
    /// Refusal 14.
    pub fn restore(words: &[u64]) -> Result<State, Refusal> {
        well(words)?;
        let words = words.try_into().map_err(|_| Refusal::State)?;
        Ok(State { words })
    }

    /// The words to save.
    #[must_use]
    pub fn words(&self) -> &[u64; STATE_WORDS] {
        &self.words
    }

    /// The number of rows.
    #[must_use]
    pub fn rows(&self) -> usize {
        self.words[0] as usize
    }

    /// Ticks done.
    #[must_use]
    pub fn time(&self) -> u32 {
        self.words[1] as u32
    }

    /// Idle ticks among them.
    #[must_use]
    pub fn idle(&self) -> u32 {
        self.words[2] as u32
    }

    /// One word of a row, `None` where there is no such row.
    #[must_use]
    pub fn word(&self, row: usize, field: Field) -> Option<u64> {
        let rows = self.words.get(HEAD_WORDS..)?;
        let words = rows.chunks_exact(ROW_WORDS).take(self.rows()).nth(row)?;
        words.get(field as usize).copied()
    }

    /// The pattern of a row, `None` where there is no such row.
    #[must_use]
    pub fn pattern(&self, row: usize) -> Option<Pattern> {
        Pattern::of(self.word(row, Field::P)? as u32)
    }

    /// The counts of a row, `None` where there is no such row.
    #[must_use]
    pub fn counts(&self, row: usize) -> Option<Counts> {
        if row < self.rows() {
            counts(&self.words, row as u32).ok()
        } else {
            None
        }
    }

    /// How many met marks a row's window holds, `None` where there is no such row. The words are a well-formed state, so the number
    /// stored is the true one.
    #[must_use]
    pub fn held(&self, row: usize) -> Option<u64> {
        if row < self.rows() {
            held(&self.words, row as u32).ok()
        } else {
            None
        }
    }

    /// One tick.
    ///
    /// # Errors
    ///
    /// Refusal 15.
    pub fn tick(&mut self) -> Result<(), Refusal> {
        tick(&mut self.words)
    }

    /// n ticks.
    ///
    /// # Errors
    ///
    /// Refusal 15.
    pub fn run(&mut self, n: u32) -> Result<(), Refusal> {
        run(&mut self.words, n)
    }

    /// A replay: at most n ticks with the lengths of a log in place of C.
    ///
    /// The log says how long each job really took: one number for each job that is released, in order of release (by tick, then by
    /// row), each 1 to C of its row. The replay stops before the first tick that releases more jobs than the log has left, or after
    /// n ticks; a tick that releases none needs no number, so it is done also where the log is empty or used up. Numbers that no
    /// release before the stop would use are not looked at.
    ///
    /// It can be made in pieces: when more numbers have come, go on with the log from `used` on, and with the ticks that are left.
    /// Where every number is the C of its row, the state is that of [`State::run`] over the same ticks.
    ///
    /// From the fresh state of a table that [`verdict`](crate::verdict) admits, whatever the numbers of an accepted replay are:
    /// every mandatory job meets its deadline, none takes longer than its row's response time (job 0 may take less, where jobs are
    /// shorter than C), and any k consecutive jobs of a task hold at least m finished in time.
    ///
    /// It is made on a copy of the words, so that a refusal leaves the state as it was, however late in the log the number stands.
    ///
    /// ```
    /// use galleypoppy::{Refusal, Replayed, State};
    ///
    /// # fn main() -> Result<(), Refusal> {
    /// // Jobs of at most 3 ticks, one every 4.
    /// let mut state = State::fresh(&[7, 3, 4, 4, 1, 1, 0])?;
    /// let log = [1, 3, 2];
    /// let first = state.replay(20, &log[..2])?;
    /// assert_eq!(first, Replayed { ticks: 8, used: 2 });
    /// assert_eq!(state.replay(20 - first.ticks, &log[first.used..])?.ticks, 4);
    /// assert_eq!((state.time(), state.idle()), (12, 6));
    ///
    /// assert_eq!(state.replay(20, &[3, 4]), Err(Refusal::Log(1)));
    /// assert_eq!(state.time(), 12);
    /// # Ok(())
    /// # }
    /// ```
    ///
    /// # Errors
    ///
    /// Refusal 15 by n, also where the log would stop the replay sooner; then 18, with the place of the first number out of range
    /// that a release before the stop would use.
    pub fn replay(&mut self, n: u32, log: &[u32]) -> Result<Replayed, Refusal> {
        replay(&mut self.words, n, log)
    }
}
