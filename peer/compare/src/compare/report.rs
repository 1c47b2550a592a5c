//! "The printing program": as a function, every answer and every lent byte, and
//! as a process, every byte of its standard output.
//!
//! What is refused is judged by three where the input is short: the first
//! program, the second one, and the rule of [`peer::brute`], which has no reader.

mod changes;
mod far;
mod inputs;
mod process;
mod refusals;

use peer::answer::Answer;
use peer::brute;
use peer::report;

use super::Comparison;
use crate::course::{shown, Compared, Course};
use crate::draw::byte_room_of;
use crate::ffi;
use crate::lent::Lent;

/// Bytes that are always room enough, by the first program's own word.
const ENOUGH: usize = 5_632;

/// The longest input that the rule is asked about: it tries every beginning.
const RULED: usize = 90;

/// All that can come of an input when the room is long enough: admitted, 11 for
/// unschedulable, and the numbers that are printed.
const EVERY: [u64; 13] = [0, 2, 3, 4, 5, 6, 7, 8, 9, 10, 11, 12, 16];

pub const ALL: &[Comparison] = &[
    Comparison::drawn("report_samples", &[0, 11, 12, 13], inputs::samples),
    Comparison::drawn("report_drawn", &[0, 11, 13], inputs::drawn),
    Comparison::drawn("report_wide", &[0, 11], inputs::wide),
    Comparison::drawn("report_limit", &[0, 11], inputs::limit),
    Comparison::drawn("report_misfits", &[0, 11], inputs::misfits),
    Comparison::drawn("report_rooms", &[4, 11, 12, 13], inputs::rooms),
    Comparison::drawn(
        "report_ticks_values",
        &[0, 2, 12, 13],
        refusals::ticks_values,
    ),
    Comparison::drawn(
        "report_ticks_lines",
        &[0, 2, 3, 12, 13],
        refusals::ticks_lines,
    ),
    Comparison::drawn("report_row_numbers", &[2, 3, 12, 13], refusals::row_numbers),
    Comparison::drawn(
        "report_row_faults",
        &[4, 5, 6, 7, 8, 9, 10, 13, 16],
        refusals::row_faults,
    ),
    Comparison::drawn("report_damaged", &EVERY, refusals::damaged),
    Comparison::drawn(
        "report_changes_every_byte",
        &[0, 3, 12, 13, 16],
        changes::every_byte,
    ),
    Comparison::drawn(
        "report_changes_telling",
        &[0, 3, 11, 12, 13],
        changes::telling,
    ),
    Comparison::drawn(
        "report_changes_many_rows",
        &[0, 11, 12, 13],
        changes::many_rows,
    ),
    Comparison::drawn("report_ends_early", &[12, 13], changes::early),
    Comparison::drawn("report_far", &[2, 3, 12, 13], far::far),
    Comparison::drawn("report_near_longest", &[4, 11, 12, 13], far::near_longest),
    Comparison::drawn("report_process_whole", &[0, 2, 3, 11, 12], process::whole),
    Comparison::drawn("report_process_pieces", &[0, 11, 12], process::pieces),
    Comparison::fixed("report_process_nothing", &[12], process::nothing),
    Comparison::fixed("report_process_files", &[0, 11, 12], process::files),
    Comparison::drawn("report_process_far", &[2, 3, 12], process::far),
];

/// What an input came to, for the count of answers: 0 for an admitted table, 11
/// for an unschedulable one, and the number that is printed.
fn outcome(printed: &[u8]) -> Answer {
    if printed.starts_with(b"verdict=admitted\n") {
        return Answer::accepted(0);
    }
    let number = printed.strip_prefix(b"refused=").map(|rest| {
        let digits = rest.iter().take_while(|byte| byte.is_ascii_digit());
        digits.fold(0, |number, byte| 10 * number + u64::from(byte - b'0'))
    });
    Answer::refused(number.unwrap_or(11))
}

/// What the rule has printed for an input that is refused.
fn ruled(input: &[u8]) -> Option<String> {
    let answer = brute::report_refusal(input)?;
    let refused = format!("refused={}\n", answer.refusal);
    let at = answer.at().map(|at| format!("at={at}\n"));
    Some(refused + &at.unwrap_or_default())
}

/// What the second program prints for an input, and what the rule does: nothing
/// is known of the rule on a long input, and on one that is accepted it does not
/// say what is printed.
struct Printed {
    bytes: Vec<u8>,
    rule: Option<Option<String>>,
}

impl Printed {
    fn of(input: &[u8]) -> Printed {
        Printed {
            bytes: report::report(input),
            rule: (input.len() <= RULED).then(|| ruled(input)),
        }
    }

    fn len(&self) -> usize {
        self.bytes.len()
    }

    /// Whether the rule has it so.
    fn is_ruled(&self) -> bool {
        match &self.rule {
            None => true,
            Some(None) => self.bytes.starts_with(b"verdict="),
            Some(Some(refused)) => refused.as_bytes() == self.bytes,
        }
    }

    /// What is due of it in a room that was so before.
    fn due_in(&self, room: &[u8]) -> Due {
        let mut room = room.to_vec();
        let (answer, counted) = match room.get_mut(..self.len()) {
            Some(start) => {
                start.copy_from_slice(&self.bytes);
                let answer = Answer::accepted(self.len() as u64);
                (answer, outcome(&self.bytes))
            }
            None => (Answer::refused(13), Answer::refused(13)),
        };
        Due {
            answer,
            counted,
            room,
        }
    }
}

/// The second program's answer, what the case is counted under, and the room after.
struct Due {
    answer: Answer,
    counted: Answer,
    room: Vec<u8>,
}

/// The first program's answer for an input lent with these bytes right after it,
/// into a room, against what the second one prints; and every byte lent.
fn same_print(
    course: &mut Course,
    (input, after): (&[u8], &[u8]),
    printed: &Printed,
    room: &[u8],
) -> Compared {
    let mut lent_input = Lent::followed(&mut course.rng, input, after);
    // As many watched bytes as a program that forgets the room's end would fill.
    let short = vec![b'.'; printed.len().saturating_sub(room.len())];
    let mut lent_room = Lent::followed(&mut course.rng, room, &short);
    let first = ffi::report_lent(&mut lent_input, &mut lent_room);
    let due = printed.due_in(room);
    let same = first == due.answer && lent_input.holds(input) && lent_room.holds(&due.room);
    course.settle(due.counted, same && printed.is_ruled(), || {
        format!(
            "input of {} bytes, followed by {}:\n{}\nroom of {} bytes before: {}\n\
             first {} room {}\npeer  {} room {}\nrule  {:?}\naltered beside the room {:?}\n\
             input after {}\naltered beside the input {:?}",
            input.len(),
            after.escape_ascii(),
            input.escape_ascii(),
            room.len(),
            room.escape_ascii(),
            shown(first),
            lent_room.words().escape_ascii(),
            shown(due.answer),
            due.room.escape_ascii(),
            printed.rule,
            lent_room.altered_beside(),
            lent_input.words().escape_ascii(),
            lent_input.altered_beside(),
        )
    })
}

/// One input into a drawn room: mostly of the length that is printed or longer,
/// else short by one byte, by any number, or empty.
pub(super) fn same_report(course: &mut Course, input: &[u8]) -> Compared {
    let printed = Printed::of(input);
    let rng = &mut course.rng;
    let needed = printed.len();
    let length = match rng.below(20) {
        0 => 0,
        1 | 2 => needed - 1,
        3 => rng.index(needed),
        4..=10 => needed,
        11 | 12 => needed + 1,
        13 => ENOUGH,
        _ => needed + rng.index(100),
    };
    let room = byte_room_of(rng, length);
    same_print(course, (input, &[]), &printed, &room)
}

/// One input into a room of each of these lengths.
fn same_report_in(
    course: &mut Course,
    input: &[u8],
    lengths: impl Fn(usize) -> Vec<usize>,
) -> Compared {
    let printed = Printed::of(input);
    for length in lengths(printed.len()) {
        let room = byte_room_of(&mut course.rng, length);
        same_print(course, (input, &[]), &printed, &room)?;
    }
    Ok(())
}

/// No byte, one short, just enough, one more, and what is always enough.
fn near(needed: usize) -> Vec<usize> {
    vec![0, needed - 1, needed, needed + 1, ENOUGH]
}

/// An input: the first line, then the text of these words.
fn input_of(ticks: u32, words: &[u32]) -> Vec<u8> {
    [
        format!("ticks={ticks}\n").into_bytes(),
        peer::text::text_of(words),
    ]
    .concat()
}
