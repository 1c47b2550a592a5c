//! Document 02, 7/14: the room of every row of a table, admitted or turned down, in the
//! lent room; and what the rooms tell, on the first program's own verdicts.
//!
//! The judge is one walk over every tick, in which jobs are counted one by one. The
//! stretches and the leaps must come to the same, and so must the walk by the formula,
//! row by row in a small table.

mod bounds;
mod drawn;
mod laws;
mod moved;
mod refused;

use peer::brute;
use peer::rooms::{room, rooms, rooms_by_leaps, rooms_by_stretches};
use peer::table::{Table, ROW_WORDS};

use super::table::{ROWS_REFUSED, WORDS_REFUSED};
use super::Comparison;
use crate::course::{shown, Compared, Course};
use crate::draw;
use crate::ffi;
use crate::lent::Lent;

pub const ALL: &[Comparison] = &[
    Comparison::drawn("rooms_lengths", &[0, 13], drawn::lengths),
    Comparison::fixed("rooms_small", &[0, 13], drawn::small),
    Comparison::drawn("rooms_drawn", &[0, 13], drawn::drawn),
    Comparison::drawn("rooms_limit", &[0, 13], drawn::limit),
    Comparison::drawn("rooms_slow", &[0, 13], drawn::slow),
    Comparison::drawn("rooms_large", &[0, 13], drawn::large),
    Comparison::drawn("rooms_turned_down", &[0], drawn::turned_down),
    Comparison::drawn("rooms_one_row", &[0, 13], bounds::one_row),
    Comparison::drawn("rooms_two_rows", &[0, 13], bounds::two_rows),
    Comparison::drawn("rooms_many_rows", &[0, 13], bounds::many_rows),
    Comparison::drawn("rooms_overload", &[0, 13], bounds::overload),
    Comparison::drawn("rooms_ends_of_d", &[0], bounds::ends_of_d),
    Comparison::drawn("rooms_far_below_d", &[0, 13], bounds::far_below_d),
    Comparison::drawn("rooms_refused", &WORDS_REFUSED, refused::drawn),
    Comparison::drawn("rooms_fields", &ROWS_REFUSED, refused::fields),
    Comparison::drawn("rooms_fault_sets", &ROWS_REFUSED, refused::fault_sets),
    Comparison::drawn("rooms_fits", &[0, 11], laws::fits),
    Comparison::drawn("rooms_planner", &[0, 11], laws::planner),
    Comparison::drawn("rooms_moved", &[0], moved::moved),
];

/// The rows, times all their D together, up to which the formula is walked for each row
/// by itself: two rows with D of 65,535 are among them.
const WALKED: usize = 270_000;

/// Whether the walks by the formula have these rooms too. They take long, so of larger
/// tables only one in many is walked, and that for all rows at once.
fn walks_agree(course: &mut Course, words: &[u32], filled: &[u32]) -> bool {
    let Ok(table) = Table::of(words) else {
        return true;
    };
    let rows = table.rows().len();
    let ticks: usize = table.rows().iter().map(|row| row.d as usize).sum();
    let small = rows * ticks <= WALKED;
    if !small && !course.rng.once_in(40) {
        return true;
    }
    let mut walked = filled.to_vec();
    let all = rooms(words, &mut walked).is_accepted() && walked == filled;
    let each = |(row, due): (usize, &u32)| room(&table, row) == *due;
    all && (!small || filled[..rows].iter().enumerate().all(each))
}

/// Both rooms, and every word that was lent for them.
pub fn same_rooms(course: &mut Course, words: &[u32], room: &[u32]) -> Compared {
    let mut lent_words = Lent::new(&mut course.rng, words);
    let mut lent_room = Lent::new(&mut course.rng, room);
    let first = ffi::rooms_lent(&mut lent_words, &mut lent_room);
    let mut filled = room.to_vec();
    let peer = brute::rooms::rooms(words, &mut filled);
    let quick = [rooms_by_stretches, rooms_by_leaps].map(|quick| {
        let mut filled = room.to_vec();
        (quick(words, &mut filled), filled)
    });
    let alike = quick
        .iter()
        .all(|(answer, room)| *answer == peer && *room == filled);
    let alike = alike && (!peer.is_accepted() || walks_agree(course, words, &filled));
    let same = first == peer && lent_words.holds(words) && lent_room.holds(&filled);
    course.settle(peer, alike && same, || {
        format!(
            "rooms of {words:?}\nlent room before {room:?}\n\
             first {} room {:?}\npeer  {} room {filled:?}, by stretches and by leaps \
             {quick:?}, all alike {alike}\naltered beside the room {:?}\n\
             table after {:?}\naltered beside the table {:?}",
            shown(first),
            lent_room.words(),
            shown(peer),
            lent_room.altered_beside(),
            lent_words.words(),
            lent_words.altered_beside(),
        )
    })
}

/// The rooms into a drawn room.
fn same_drawn(course: &mut Course, words: &[u32]) -> Compared {
    let room = draw::room(&mut course.rng, words.len() / ROW_WORDS);
    same_rooms(course, words, &room)
}
