//! What every run is made of: its end or its refusal, the rows' patterns, the release
//! of a job and the settling of one.

use super::window::marks;
use super::{well_formed, Row, State};
use crate::answer::{refusal, Answer};
use crate::pattern::Pattern;
use crate::table::ROWS_MAX;

/// The time after a run, or its refusal: "For a run: 14, 15."
pub(super) fn end_of_run(state: &State, n: u32) -> Result<u32, Answer> {
    if !well_formed(state) {
        return Err(Answer::refused(refusal::STATE));
    }
    let end = state.time.checked_add(n);
    end.ok_or(Answer::refused(refusal::CLOCK))
}

/// Each row's own pattern, a bit for each place.
pub(super) fn patterns_of(rows: &[Row]) -> [u64; ROWS_MAX] {
    let mut patterns = [0; ROWS_MAX];
    for (word, row) in patterns.iter_mut().zip(rows) {
        let Row { m, k, p, .. } = *row;
        *word = Pattern { m, k, p }.word();
    }
    patterns
}

/// "Every row with wait 0 releases its next job with C work, D ticks to its
/// deadline, and its kind from the pattern at its place. Its wait becomes T and
/// its place goes up by one, from k - 1 to 0." A replay has other work "in place of
/// C" (document 02, 5/14), so it is the caller's to name.
#[inline]
pub(super) fn release(row: &mut Row, pattern: u64, work: u32) -> u32 {
    row.work = work;
    row.left = row.d;
    row.kind = (pattern >> row.place & 1) as u32;
    row.wait = row.t;
    row.place = if row.place + 1 == row.k {
        0
    } else {
        row.place + 1
    };
    row.released += 1;
    row.kind
}

/// "A settled job shifts its row's window: the newest mark is bit 0, 1 for met,
/// older marks move up, the mark that reaches bit k is cut." The number of met
/// marks goes up by the mark that comes in and down by the one that is cut, which
/// is among them if it is met. The counts follow, and "work, deadline and kind
/// become 0".
#[inline]
pub(super) fn settle(row: &mut Row) {
    let met = row.work == 0;
    let cut = (row.window >> (row.k - 1) & 1) as u32;
    row.held = row.held + u32::from(met) - cut;
    row.window = (row.window << 1 | u64::from(met)) & marks(row.k);
    row.broken += u32::from(row.held < row.m);
    match (row.kind == 1, met) {
        (true, true) => row.mm += 1,
        (true, false) => row.mx += 1,
        (false, true) => row.om += 1,
        (false, false) => row.ox += 1,
    }
    row.work = 0;
    row.left = 0;
    row.kind = 0;
}
