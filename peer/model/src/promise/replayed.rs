//! The promises of an admitted table on what a replay did: "For an admitted table demand
//! 3 holds here too, response time as an upper bound" (document 02, 5/14).

use super::{counts_agree, fates_of, idle_agrees, row_keeps, Kept, Trace};
use crate::table::{Table, ROWS_MAX};

/// Whether a trace of jobs with these lengths, row by row in the order of their release,
/// keeps the promises that were made with these response times.
pub fn judge_replay(
    table: &Table,
    trace: &Trace,
    lengths: &[Vec<u32>],
    responses: &[u32; ROWS_MAX],
) -> Result<Kept, String> {
    let mut kept = Kept {
        admitted: true,
        ..Kept::default()
    };
    for (at, (task, response)) in table.rows().iter().zip(responses).enumerate() {
        let of_row = lengths.get(at).map_or(&[][..], Vec::as_slice);
        // A job without a length is never met, so that one left out shows.
        let length = |job: usize| of_row.get(job).copied().unwrap_or(u32::MAX);
        let fates = fates_of(task, at, &trace.chosen, length)?;
        if fates.len() != of_row.len() {
            let (jobs, known) = (fates.len(), of_row.len());
            return Err(format!("row {at}: {jobs} jobs, lengths of {known}"));
        }
        counts_agree(task, at, &fates, &trace.state)?;
        row_keeps(task, &fates, (*response, trace.chosen.len()), &mut kept)
            .map_err(|fault| format!("row {at}: {fault}"))?;
    }
    idle_agrees(trace)?;
    Ok(kept)
}
