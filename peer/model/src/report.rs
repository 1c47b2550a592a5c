//! "The printing program": input bytes to output bytes.

use crate::answer::{refusal, Answer};
use crate::dispatch::{self, State};
use crate::rooms;
use crate::table::ROWS_MAX;
use crate::text::{line, read_words, Reader, KEYS};
use crate::verdict;

/// "a line `ticks=N` (same value rule; a fault there is 12), then a task text;
/// places count from the first byte." One reader goes over the whole input, so
/// its places are the input's.
fn asked(input: &[u8]) -> Result<(u32, Vec<u32>), Answer> {
    let mut reader = Reader::new(input);
    let ticks = reader
        .value("ticks")
        .map_err(|place| Answer::refused_at(refusal::TEXT_FAULT, place as u64))?;
    let words = read_words(&mut reader, &KEYS)?;
    Ok((ticks, words))
}

/// What fills a room with a figure for each row of a table.
type Figures = fn(&[u32], &mut [u32]) -> Answer;

/// "It prints the verdict, runs N ticks from fresh, and prints counts." The
/// table is run whether admitted or not, and the room is told of every row.
fn printed(input: &[u8], judge: Figures, rooms: Figures) -> Result<Vec<u8>, Answer> {
    let (ticks, words) = asked(input)?;
    let (mut responses, mut room) = ([0; ROWS_MAX], [0; ROWS_MAX]);
    let verdict = judge(&words, &mut responses);
    rooms(&words, &mut room);
    let mut state = dispatch::fresh(&words)?;
    let ran = dispatch::run(&mut state, ticks);
    if !ran.is_accepted() {
        return Err(ran);
    }
    let mut out = Vec::new();
    print_verdict(&mut out, verdict);
    print_counts(&mut out, &state, &responses, &room);
    Ok(out)
}

/// "If unschedulable, the first line is `verdict=unschedulable`, a line `at=`
/// with the row follows it, and every r is 0." A refused verdict has left the
/// responses at 0.
fn print_verdict(out: &mut Vec<u8>, verdict: Answer) {
    if verdict.is_accepted() {
        out.extend_from_slice(b"verdict=admitted\n");
    } else {
        out.extend_from_slice(b"verdict=unschedulable\n");
        line(out, "at", verdict.value);
    }
}

/// "r is the response time; mm, mx, om, ox are mandatory met and missed,
/// optional met and missed." "after `r=` comes a line `room=`, printed for every row,
/// also in a table turned down" (document 02, 7/14).
fn print_counts(out: &mut Vec<u8>, state: &State, responses: &[u32], rooms: &[u32]) {
    line(out, "ticks", u64::from(state.time));
    line(out, "idle", u64::from(state.idle));
    let figures = responses.iter().zip(rooms);
    let rows = state.row.iter().zip(figures).take(state.rows as usize);
    for (at, (row, (response, room))) in rows.enumerate() {
        let lines = [
            ("row", at as u32),
            ("id", row.id),
            ("r", *response),
            ("room", *room),
            ("released", row.released),
            ("mm", row.mm),
            ("mx", row.mx),
            ("om", row.om),
            ("ox", row.ox),
            ("broken", row.broken),
            ("spare", dispatch::spare(row.window, row.m, row.k)),
        ];
        for (key, value) in lines {
            line(out, key, u64::from(value));
        }
    }
}

/// "A refusal prints `refused=` with its number, then `at=` with the row or
/// place where there is one, and nothing more."
pub(crate) fn refused(answer: Answer) -> Vec<u8> {
    let mut out = Vec::new();
    line(&mut out, "refused", answer.refusal);
    if let Some(at) = answer.at() {
        line(&mut out, "at", at);
    }
    out
}

/// All that the printing program prints for an input.
pub fn report(input: &[u8]) -> Vec<u8> {
    printed(input, verdict::verdict, rooms::rooms).unwrap_or_else(refused)
}

/// The same bytes, the response times found by leaps and the rooms by stretches.
pub fn report_leaping(input: &[u8]) -> Vec<u8> {
    let (judge, rooms): (Figures, Figures) = (verdict::verdict_leaping, rooms::rooms_by_stretches);
    printed(input, judge, rooms).unwrap_or_else(refused)
}

/// The same bytes into a lent room: 13 when it is too short for them, otherwise
/// the value is the number of bytes written. A printed refusal is an answer
/// like any other here.
pub fn report_into(input: &[u8], room: &mut [u8]) -> Answer {
    laid(&report(input), room)
}

/// The same by leaps.
pub fn report_leaping_into(input: &[u8], room: &mut [u8]) -> Answer {
    laid(&report_leaping(input), room)
}

fn laid(out: &[u8], room: &mut [u8]) -> Answer {
    let Some(room) = room.get_mut(..out.len()) else {
        return Answer::refused(refusal::ROOM_TOO_SHORT);
    };
    room.copy_from_slice(out);
    Answer::accepted(out.len() as u64)
}
