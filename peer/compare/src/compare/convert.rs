//! Document 02, 4/14: old task files carried to the new form, and back.
//!
//! A text is carried by three: the first program, the second one, and the rule of
//! [`peer::brute::convert`], which moves whole lines and neither reads nor writes a
//! value. Each comparison goes one way, so that what it must bring about is asked of
//! that way.

mod changes;
mod ends;
mod forms;
mod inputs;
mod patterns;
mod process;
mod rooms;
mod trips;
mod values;

use peer::brute;
use peer::convert::Way::{ToNew, ToOld};
use peer::convert::{self, Way};

use super::Comparison;
use crate::course::{shown, Compared, Course, Difference};
use crate::draw::{byte_room, byte_room_of};
use crate::ffi;
use crate::lent::Lent;

/// All that an old text can be refused for, and 0: it has no p.
const OLD: [u64; 12] = [0, 2, 3, 4, 5, 6, 7, 8, 9, 10, 12, 13];

/// All that a new text can be refused for, and 0.
const NEW: [u64; 14] = [0, 2, 3, 4, 5, 6, 7, 8, 9, 10, 12, 13, 16, 17];

/// What faults of the rows alone bring about.
const OLD_ROWS: [u64; 8] = [0, 4, 5, 6, 7, 8, 9, 10];
const NEW_ROWS: [u64; 10] = [0, 4, 5, 6, 7, 8, 9, 10, 16, 17];

pub const ALL: &[Comparison] = &[
    Comparison::drawn("convert_trips_to_new", &[0, 13], |course| {
        trips::drawn(course, ToNew)
    }),
    Comparison::drawn("convert_trips_to_old", &[0, 13], |course| {
        trips::drawn(course, ToOld)
    }),
    Comparison::drawn("convert_trips_red", &[0, 17], trips::red),
    Comparison::drawn("convert_trips_limits_to_new", &[0, 13], |course| {
        trips::limits(course, ToNew)
    }),
    Comparison::drawn("convert_trips_limits_to_old", &[0, 13], |course| {
        trips::limits(course, ToOld)
    }),
    Comparison::drawn("convert_damaged_to_new", &OLD, |course| {
        changes::damaged(course, ToNew)
    }),
    Comparison::drawn("convert_damaged_to_old", &NEW, |course| {
        changes::damaged(course, ToOld)
    }),
    Comparison::drawn("convert_every_byte_to_new", &[0, 2, 3, 4, 12], |course| {
        changes::every_byte(course, ToNew)
    }),
    Comparison::drawn(
        "convert_every_byte_to_old",
        &[0, 2, 3, 4, 12, 16, 17],
        |course| changes::every_byte(course, ToOld),
    ),
    Comparison::drawn("convert_changes_to_new", &[0, 3, 12], |course| {
        changes::telling(course, ToNew)
    }),
    Comparison::drawn("convert_changes_to_old", &[0, 3, 12, 17], |course| {
        changes::telling(course, ToOld)
    }),
    Comparison::drawn("convert_lines_to_new", &[0, 12], |course| {
        changes::lines(course, ToNew)
    }),
    Comparison::drawn("convert_lines_to_old", &[0, 12], |course| {
        changes::lines(course, ToOld)
    }),
    Comparison::drawn("convert_ends_to_new", &[0, 2, 3, 12], |course| {
        ends::ends(course, ToNew)
    }),
    Comparison::drawn("convert_ends_to_old", &[0, 2, 3, 12], |course| {
        ends::ends(course, ToOld)
    }),
    Comparison::drawn("convert_far_to_new", &[2, 3, 12], |course| {
        ends::far(course, ToNew)
    }),
    Comparison::drawn("convert_far_to_old", &[2, 3, 12], |course| {
        ends::far(course, ToOld)
    }),
    Comparison::drawn("convert_forms_to_new", &[0, 12], |course| {
        forms::forms(course, ToNew)
    }),
    Comparison::drawn("convert_forms_to_old", &[0, 12], |course| {
        forms::forms(course, ToOld)
    }),
    Comparison::drawn("convert_fields_to_new", &OLD_ROWS, |course| {
        values::fields(course, ToNew)
    }),
    Comparison::drawn("convert_fields_to_old", &NEW_ROWS, |course| {
        values::fields(course, ToOld)
    }),
    Comparison::drawn(
        "convert_values_to_new",
        &[0, 2, 3, 4, 5, 6, 7, 8, 9, 12],
        |course| values::every(course, ToNew),
    ),
    Comparison::drawn(
        "convert_values_to_old",
        &[0, 2, 3, 4, 5, 6, 7, 8, 9, 12, 16, 17],
        |course| values::every(course, ToOld),
    ),
    Comparison::drawn("convert_patterns_rows", &[17], patterns::rows),
    Comparison::drawn("convert_patterns_sets", &[0, 17], patterns::sets),
    Comparison::drawn(
        "convert_patterns_faults",
        &[4, 5, 6, 7, 8, 9, 10, 12, 16, 17],
        patterns::faults,
    ),
    Comparison::drawn("convert_rooms_to_new", &[0, 4, 12, 13], |course| {
        rooms::rooms(course, ToNew)
    }),
    Comparison::drawn("convert_rooms_to_old", &[0, 4, 12, 13, 17], |course| {
        rooms::rooms(course, ToOld)
    }),
    Comparison::fixed("convert_samples", &[0, 12, 17], process::samples),
    Comparison::drawn("convert_process_to_new", &[0, 2, 3, 4, 12], |course| {
        process::whole(course, ToNew)
    }),
    Comparison::drawn(
        "convert_process_to_old",
        &[0, 2, 3, 4, 12, 16, 17],
        |course| process::whole(course, ToOld),
    ),
    Comparison::drawn("convert_process_pieces", &[0, 12], process::pieces),
    Comparison::fixed("convert_process_nothing", &[12], process::nothing),
    Comparison::drawn("convert_process_long_to_new", &[0, 2, 3, 12], |course| {
        process::long(course, ToNew)
    }),
    Comparison::drawn("convert_process_long_to_old", &[0, 2, 3, 12], |course| {
        process::long(course, ToOld)
    }),
];

/// What came of a text that all three carried alike: another text, or nothing.
type Text = Result<Option<Vec<u8>>, Difference>;

/// A text lent with these bytes right after it, into a room: all three answers, and
/// every byte that was lent.
fn same_into(course: &mut Course, way: Way, (text, after): (&[u8], &[u8]), room: &[u8]) -> Text {
    let mut lent_text = Lent::followed(&mut course.rng, text, after);
    let mut lent_room = Lent::new(&mut course.rng, room);
    let first = ffi::convert_lent(way, &mut lent_text, &mut lent_room);
    let (mut filled, mut ruled) = (room.to_vec(), room.to_vec());
    let peer = convert::convert(way, text, &mut filled);
    let rule = brute::convert::convert(way, text, &mut ruled);
    let same = first == peer && lent_text.holds(text) && lent_room.holds(&filled);
    course.settle(peer, same && peer == rule && filled == ruled, || {
        format!(
            "{way:?}, {} bytes, followed by {}:\n{}\nroom of {} bytes before: {}\n\
             first {} room {}\npeer  {} room {}\nrule  {} room {}\n\
             altered beside the room {:?}\ntext after {}\naltered beside the text {:?}",
            text.len(),
            after.escape_ascii(),
            text.escape_ascii(),
            room.len(),
            room.escape_ascii(),
            shown(first),
            lent_room.words().escape_ascii(),
            shown(peer),
            filled.escape_ascii(),
            shown(rule),
            ruled.escape_ascii(),
            lent_room.altered_beside(),
            lent_text.words().escape_ascii(),
            lent_text.altered_beside(),
        )
    })?;
    filled.truncate(peer.value as usize);
    Ok(peer.is_accepted().then_some(filled))
}

/// A text into a drawn room: what was carried is carried back, byte for byte.
fn same_text(course: &mut Course, way: Way, text: &[u8]) -> Compared {
    // Mostly the length of what is due; where nothing is, about that of the text.
    let due = convert::carried(way, text).map_or(text.len().min(2_000), |due| due.len());
    let room = byte_room(&mut course.rng, due);
    match same_into(course, way, (text, &[]), &room)? {
        Some(there) => same_back(course, way, text, &there),
        None => Ok(()),
    }
}

/// "There and back gives the same bytes", in a room of just that length.
fn same_back(course: &mut Course, way: Way, text: &[u8], there: &[u8]) -> Compared {
    let room = byte_room_of(&mut course.rng, text.len());
    let back = same_into(course, way.back(), (there, &[]), &room)?;
    if back.as_deref() == Some(text) {
        return Ok(());
    }
    let (text, there) = (text.escape_ascii(), there.escape_ascii());
    let back = back.unwrap_or_default();
    Err(Difference(format!(
        "{way:?}\n{text}\ngives\n{there}\nand back\n{}",
        back.escape_ascii()
    )))
}
