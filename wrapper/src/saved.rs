//! The words of a state, lent where they lie. [`State`](crate::State) keeps them for who doesn't want to.

use crate::{ffi, Refusal, ROWS_MAX};

/// Words of a state before its rows: the number of rows, the time, the idle count.
pub(crate) const HEAD_WORDS: usize = 3;

/// Words of a row of a state, in the order of [`Field`](crate::Field).
pub(crate) const ROW_WORDS: usize = 20;

/// Words of a state: the number of rows, the time, the idle count, then 20 words for each of 32 rows, 0 where there is no row.
///
/// A state that was saved before 3/14 has 611 words, none of them a pattern; before 2/14 it has 579, none of them a number of met
/// marks either. Both are refused with 14 by their length. Do not lengthen one: padded, it is judged as any other words are.
pub const STATE_WORDS: usize = HEAD_WORDS + ROWS_MAX * ROW_WORDS;

/// Words of a row's counts, in the order of the fields of [`Counts`].
pub const COUNT_WORDS: usize = 7;

/// The counts of one row.
#[derive(Clone, Copy, Debug, Default, PartialEq, Eq, Hash)]
pub struct Counts {
    /// Jobs released.
    pub released: u64,
    /// Mandatory jobs met.
    pub mm: u64,
    /// Mandatory jobs missed.
    pub mx: u64,
    /// Optional jobs met.
    pub om: u64,
    /// Optional jobs missed.
    pub ox: u64,
    /// Settlings after which the window held fewer than m met marks.
    pub broken: u64,
    /// Misses left: so many further misses in a row leave the window at least m met marks, and one more does not. 0 also where it
    /// holds fewer than m already: then [`held`] is below m.
    pub spare: u64,
}

impl Counts {
    fn of(words: [u64; COUNT_WORDS]) -> Counts {
        let [released, mm, mx, om, ox, broken, spare] = words;
        Counts {
            released,
            mm,
            mx,
            om,
            ox,
            broken,
            spare,
        }
    }
}

/// How far a replay came.
#[derive(Clone, Copy, Debug, Default, PartialEq, Eq, Hash)]
pub struct Replayed {
    /// Ticks done.
    pub ticks: u32,
    /// Numbers of the log used, from its start.
    pub used: usize,
}

/// The fresh state of a table, admitted or not, in the first [`STATE_WORDS`] words of the room: its number of rows.
///
/// # Errors
///
/// Refusals 1, 2, 3, then row by row 4 to 9 in number order, 16, 10; then 13.
pub fn fresh(table: &[u32], room: &mut [u64]) -> Result<usize, Refusal> {
    ffi::fresh(table, room).map(|rows| rows as usize)
}

/// Whether words are a well-formed state, [`STATE_WORDS`] in number, each row's number of met marks the true one.
///
/// # Errors
///
/// Refusal 14.
pub fn well(state: &[u64]) -> Result<(), Refusal> {
    ffi::well(state).map(|_| ())
}

/// One tick of a state.
///
/// # Errors
///
/// Refusals 14, 15.
pub fn tick(state: &mut [u64]) -> Result<(), Refusal> {
    ffi::tick(state).map(|_| ())
}

/// n ticks of a state, looked at once before the first. A run of 0 alters nothing.
///
/// # Errors
///
/// Refusals 14, 15.
pub fn run(state: &mut [u64], n: u32) -> Result<(), Refusal> {
    ffi::run(state, n).map(|_| ())
}

/// At most n ticks of a state with the lengths of a log in place of C, as [`State::replay`](crate::State::replay) has it. A refusal
/// alters no word of the state.
///
/// # Errors
///
/// Refusals 14; 15 by n, also where the log would stop the replay sooner; then 18, with the place of the first number out of range
/// that a release before the stop would use.
pub fn replay(state: &mut [u64], n: u32, log: &[u32]) -> Result<Replayed, Refusal> {
    let (ticks, used) = ffi::replay(state, n, log)?;
    // No more than n, and no more than the log has.
    Ok(Replayed {
        ticks: ticks as u32,
        used: used as usize,
    })
}

/// The counts of one row of a state, all 0 where it has no such row.
///
/// # Errors
///
/// Refusal 14.
pub fn counts(state: &[u64], row: u32) -> Result<Counts, Refusal> {
    let mut room = [0; COUNT_WORDS];
    ffi::counts(state, row, &mut room)?;
    Ok(Counts::of(room))
}

/// How many met marks one row of a state has, as it is stored; 0 where it has no such row.
///
/// It costs the same however many rows there are, because it does not go through them; so it does not look whether the state is
/// well formed. On a well-formed state the answer is the number of met marks in the row's window; of words that come from elsewhere
/// ask [`well`] first, or keep them in a [`State`](crate::State).
///
/// ```
/// use galleypoppy::{fresh, held, run, Refusal, STATE_WORDS};
///
/// # fn main() -> Result<(), Refusal> {
/// // Two ticks of work, due after one: every job is missed.
/// let mut state = [0; STATE_WORDS];
/// fresh(&[7, 2, 4, 1, 1, 3, 0], &mut state)?;
/// assert_eq!(held(&state, 0), Ok(3));
/// run(&mut state, 5)?;
/// assert_eq!(held(&state, 0), Ok(1));
/// # Ok(())
/// # }
/// ```
///
/// # Errors
///
/// Refusal 14, only where the words are not [`STATE_WORDS`] in number or the number of rows is not 1 to 32.
pub fn held(state: &[u64], row: u32) -> Result<u64, Refusal> {
    ffi::held(state, row)
}
