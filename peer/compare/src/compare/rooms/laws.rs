//! "A row fits exactly when its C is at most its room": on the first program's verdicts
//! and rooms alone.

use peer::answer::Answer;
use peer::gen::{boundary_table, loaded_table, table, tiny_table, wide_table};
use peer::rng::Rng;
use peer::table::{ROWS_MAX, ROW_WORDS, WORD_MAX};

use crate::course::{shown, Compared, Course, Difference};
use crate::draw::{any_shape, limit_pair, slow_table, sound};
use crate::ffi;

/// Tables whose verdict is laid beside their rooms.
const FITS: u32 = 120_000;

/// Tables in which C of several rows is put at the row's room and past it.
const PLANNED: u32 = 6_000;
const PLANNED_ROWS: usize = 8;

/// The place of C in a row.
const C: usize = 1;

/// A well-formed table of any kind; few of them with long periods beside short ones,
/// which have very many stretches.
pub fn well(rng: &mut Rng) -> Vec<u32> {
    match rng.below(16) {
        0..=5 => loaded_table(rng),
        6..=9 => tiny_table(rng),
        10 => match rng.below(30) {
            0 => boundary_table(rng),
            1 => wide_table(rng),
            2 => table(rng),
            3 => slow_table(rng),
            _ => tiny_table(rng),
        },
        11 | 12 => {
            let rows = 1 + rng.index(ROWS_MAX);
            let t_max = rng.choose(&[9, 60, 400]).unwrap_or(9);
            sound(rng, rows, t_max)
        }
        kind => {
            let shape = any_shape(rng);
            let pair = limit_pair(rng, shape);
            if kind % 2 == 0 {
                pair.within
            } else {
                pair.past
            }
        }
    }
}

/// The first program's rooms of a well-formed table.
pub fn rooms_of(words: &[u32]) -> Vec<u32> {
    let mut rooms = vec![0; words.len() / ROW_WORDS];
    ffi::rooms(words, &mut rooms);
    rooms
}

/// The first program's verdict.
fn judged(words: &[u32]) -> Answer {
    ffi::verdict(words, &mut [0; ROWS_MAX])
}

/// The first row whose C is more than its room.
fn misfit(words: &[u32], rooms: &[u32]) -> Option<usize> {
    let costs = words.iter().skip(C).step_by(ROW_WORDS);
    costs.zip(rooms).position(|(c, room)| c > room)
}

/// The verdict names the first row whose C is more than its room, and admits the table
/// where there is none; no room is more than the row's D, and row 0 has all of it.
pub fn fits(course: &mut Course) -> Compared {
    for _ in 0..FITS {
        let words = well(&mut course.rng);
        let (verdict, rooms) = (judged(&words), rooms_of(&words));
        let due = match misfit(&words, &rooms) {
            Some(row) => Answer::refused_at(11, row as u64),
            None => Answer::accepted(rooms.len() as u64),
        };
        let ds = words.iter().skip(3).step_by(ROW_WORDS);
        let within = ds.zip(&rooms).all(|(d, room)| room <= d) && rooms[0] == words[3];
        course.settle(verdict, verdict == due && within, || {
            format!("table {words:?}\n{} rooms {rooms:?}", shown(verdict))
        })?;
    }
    Ok(())
}

/// Rows of a table: with C at its room the row is not named, with one unit more it is,
/// unless a row above is in both. The rooms down to its own stay as they are, and
/// those below are no larger with more.
pub fn planner(course: &mut Course) -> Compared {
    let mut at_room = 0;
    for round in 0..PLANNED {
        let mut words = match round % 16 {
            0 => boundary_table(&mut course.rng),
            1 => wide_table(&mut course.rng),
            _ => well(&mut course.rng),
        };
        if round % 16 < 2 {
            words.truncate(5 * ROW_WORDS);
        }
        let rooms = rooms_of(&words);
        let named = misfit(&words, &rooms).unwrap_or(ROWS_MAX);
        for _ in 0..PLANNED_ROWS.min(2 * rooms.len()) {
            // Often one down to which every row fits.
            let last = rooms.len() - 1;
            let last = if course.rng.once_in(2) {
                named.min(last)
            } else {
                last
            };
            let row = course.rng.index(last + 1);
            let room = rooms[row];
            if room >= 1 {
                at_room += 1;
                planned(course, (&words, &rooms), row, room, named)?;
            }
            if room < WORD_MAX {
                planned(course, (&words, &rooms), row, room + 1, named)?;
            }
        }
    }
    if at_room < 10_000 {
        return Err(Difference(format!("{at_room} rows have any room")));
    }
    Ok(())
}

/// One row's C made this; `named` is the first row that does not fit as the table was.
fn planned(
    course: &mut Course,
    (words, rooms): (&[u32], &[u32]),
    row: usize,
    c: u32,
    named: usize,
) -> Compared {
    let mut changed = words.to_vec();
    let was = changed[row * ROW_WORDS + C];
    changed[row * ROW_WORDS + C] = c;
    let (verdict, after) = (judged(&changed), rooms_of(&changed));
    let by_verdict = match verdict.refusal {
        11 => verdict.value as usize,
        _ => ROWS_MAX,
    };
    let told = if named < row {
        by_verdict == named
    } else if c > rooms[row] {
        by_verdict == row
    } else {
        by_verdict > row
    };
    let mut below = after[row + 1..].iter().zip(&rooms[row + 1..]);
    let moved = below.all(|(now, was_room)| match c >= was {
        true => now <= was_room,
        false => now >= was_room,
    });
    let kept = after[..=row] == rooms[..=row];
    course.settle(verdict, told && moved && kept, || {
        let verdict = shown(verdict);
        format!("table {words:?}\nrooms {rooms:?}\nC of row {row} made {c}\n{verdict} {after:?}")
    })
}
