//! Fresh states, laid into a lent room.

use peer::dispatch::{fresh_words, STATE_WORDS};
use peer::table::{ROWS_MAX, ROW_WORDS};

use super::{state_shown, Both};
use crate::course::{shown, Compared, Course, Difference};
use crate::draw::{any_table, sound, state_room, state_room_of};
use crate::ffi;
use crate::lent::Lent;

/// Tables drawn freely.
const DRAWN: u32 = 300_000;

/// Periods of the sound tables; only the table's words matter here.
const T_MAX: u32 = 65_535;

/// Both fresh states and every word that was lent for them. The state is handed
/// on as it stands.
pub fn same_fresh(course: &mut Course, table: &[u32], room: &[u64]) -> Result<Both, Difference> {
    let mut lent = Lent::new(&mut course.rng, table);
    let mut both = Both::new(&mut course.rng, room);
    let first = ffi::fresh_lent(&mut lent, &mut both.first);
    let peer = fresh_words(table, &mut both.peer);
    let same = first == peer && lent.holds(table) && both.alike();
    course.settle(peer, same, || {
        let (first, peer, apart) = (shown(first), shown(peer), both.apart());
        let (room, after, beside) = (state_shown(room), lent.words(), lent.altered_beside());
        format!(
            "fresh of {table:?}\nroom before: {room}\nfirst {first}\npeer  {peer}\n{apart}\n\
             table after {after:?}\naltered beside the table {beside:?}"
        )
    })?;
    Ok(both)
}

/// The fresh state of a table, in a room that it fills.
pub fn begun(course: &mut Course, table: &[u32]) -> Result<Both, Difference> {
    let room = state_room_of(&mut course.rng, STATE_WORDS);
    same_fresh(course, table, &room)
}

/// Every length of table to well past 224 words, and lengths whose row count has
/// low bits that would be in range, each with several contents.
pub fn lengths(course: &mut Course) -> Compared {
    let long = [1_785, 1_792, 1_799, 458_752, 458_759, 458_760];
    for length in (0..=300).chain(long) {
        let mut well = sound(&mut course.rng, length / ROW_WORDS + 1, T_MAX);
        well.truncate(length);
        let drawn = (0..length).map(|_| course.rng.word(0, 66)).collect();
        for table in [well, vec![0; length], vec![u32::MAX; length], drawn] {
            let room = state_room(&mut course.rng);
            same_fresh(course, &table, &room)?;
        }
    }
    empty_slices(course)
}

/// Slices without any memory behind them, as a Rust caller may lend.
fn empty_slices(course: &mut Course) -> Compared {
    for table in [&[] as &[u32], &[1, 1, 1, 1, 1, 1, 1]] {
        let first = ffi::fresh(table, &mut []);
        let peer = fresh_words(table, &mut []);
        course.settle(peer, first == peer, || {
            let (first, peer) = (shown(first), shown(peer));
            format!("fresh, no room, {table:?}: {first} {peer}")
        })?;
    }
    Ok(())
}

/// Every length of room around the one needed, for every number of rows, the
/// table sound and not.
pub fn rooms(course: &mut Course) -> Compared {
    let short = (0..=4).chain([32, 224, 579, 611]);
    let around = STATE_WORDS - 20..=STATE_WORDS + 40;
    let lengths: Vec<usize> = short.chain(around).chain([2 * STATE_WORDS]).collect();
    for rows in 1..=ROWS_MAX {
        let well = sound(&mut course.rng, rows, T_MAX);
        let mut faulty = well.clone();
        faulty[ROW_WORDS * course.rng.index(rows)] = 0;
        for table in [well, faulty] {
            for &length in &lengths {
                let room = state_room_of(&mut course.rng, length);
                same_fresh(course, &table, &room)?;
            }
        }
    }
    Ok(())
}

/// Tables with faults, sound ones and rubbish, into a drawn room.
pub fn drawn(course: &mut Course) -> Compared {
    for _ in 0..DRAWN {
        let table = any_table(&mut course.rng, T_MAX);
        let room = state_room(&mut course.rng);
        same_fresh(course, &table, &room)?;
    }
    Ok(())
}
