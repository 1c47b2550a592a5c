//! Tables of every kind that there is a generator for, and rooms of every length.

use peer::gen::{loaded_table, tiny_table};
use peer::pattern::{EVEN, RED};
use peer::table::{ROWS_MAX, ROW_WORDS};
use peer::verdict::verdict_leaping;

use super::super::verdict::{small_pairs, small_rows, small_table};
use super::{same_drawn, same_rooms};
use crate::course::{Compared, Course, Difference};
use crate::draw::{around_limit, far_tables, limit_pair, room_of, slow_table, sound};
use crate::draw::{LimitPair, Shape};
use crate::ffi;

/// Tables drawn with periods of up to a thousand ticks.
const DRAWN: u32 = 120_000;

/// Pairs on both sides of the limit, with periods of up to a few thousand.
const LIMITS: u32 = 6_000;

/// Tables whose rows leave next to nothing.
const SLOW: u32 = 1_500;

/// Rounds of tables with periods of up to 65,535 ticks, five tables to a round.
const LARGE: u32 = 900;

/// Tables that are turned down before their last row.
const TURNED_DOWN: u32 = 30_000;

/// Every length of room around the one needed, for every number of rows; the tables
/// just admitted, just not, and any.
pub fn lengths(course: &mut Course) -> Compared {
    for rows in 1..=ROWS_MAX {
        let shape = Shape {
            rows,
            t_low: 4 * ROWS_MAX as u32,
            t_high: 400,
        };
        let LimitPair { within, past } = limit_pair(&mut course.rng, shape);
        for words in [within, past, sound(&mut course.rng, rows, 100)] {
            for length in (0..=rows + 4).chain([2 * ROWS_MAX]) {
                let room = room_of(&mut course.rng, length);
                same_rooms(course, &words, &room)?;
            }
        }
    }
    Ok(())
}

/// All small tables of one, two and three rows.
pub fn small(course: &mut Course) -> Compared {
    for row in small_rows(12, &small_pairs(6)) {
        same_drawn(course, &small_table(&[row]))?;
    }
    let rows = small_rows(5, &small_pairs(4));
    for (&a, &b) in rows.iter().flat_map(|a| rows.iter().map(move |b| (a, b))) {
        same_drawn(course, &small_table(&[a, b]))?;
    }
    let rows = small_rows(3, &[[1, 1, RED], [1, 2, EVEN], [2, 4, EVEN], [2, 4, RED]]);
    for (&a, &b) in rows.iter().flat_map(|a| rows.iter().map(move |b| (a, b))) {
        for &c in &rows {
            same_drawn(course, &small_table(&[a, b, c]))?;
        }
    }
    Ok(())
}

/// Tables near full load, tiny ones, and ones of any number of rows.
pub fn drawn(course: &mut Course) -> Compared {
    for _ in 0..DRAWN {
        let rng = &mut course.rng;
        let words = match rng.below(8) {
            0..=4 => loaded_table(rng),
            5 | 6 => tiny_table(rng),
            _ => {
                let rows = 1 + rng.index(ROWS_MAX);
                sound(rng, rows, 1_000)
            }
        };
        same_drawn(course, &words)?;
    }
    Ok(())
}

/// Tables that one unit of work more makes unschedulable, and those with it.
pub fn limit(course: &mut Course) -> Compared {
    for _ in 0..LIMITS {
        for words in around_limit(&mut course.rng) {
            same_drawn(course, &words)?;
        }
    }
    Ok(())
}

/// Tables with next to no tick free above their last row.
pub fn slow(course: &mut Course) -> Compared {
    for _ in 0..SLOW {
        let words = slow_table(&mut course.rng);
        same_drawn(course, &words)?;
    }
    Ok(())
}

/// Periods and deadlines up to the ends of their ranges.
pub fn large(course: &mut Course) -> Compared {
    for round in 0..LARGE {
        // The walk is long; few of these tables have many rows.
        let rows = if round % 20 == 0 { ROWS_MAX } else { 6 };
        for words in far_tables(&mut course.rng, rows) {
            same_drawn(course, &words)?;
        }
    }
    Ok(())
}

/// Tables that the verdict turns down, with rows below the one that it names: their
/// rooms are told, and in enough of them they are above 0, also where the row fits.
pub fn turned_down(course: &mut Course) -> Compared {
    let (mut roomy, mut fitting) = (0, 0);
    for round in 0..TURNED_DOWN {
        let rng = &mut course.rng;
        let rows = 2 + rng.index(ROWS_MAX - 1);
        let mut words = match round % 3 {
            0 => loaded_table(rng),
            1 => sound(rng, rows, 60),
            _ => sound(rng, rows, 600),
        };
        lower_costs(course, &mut words);
        let answer = verdict_leaping(&words, &mut [0; ROWS_MAX]);
        let below = answer.value as usize + 1..words.len() / ROW_WORDS;
        if answer.refusal != 11 || below.is_empty() {
            continue;
        }
        let room = room_of(&mut course.rng, words.len() / ROW_WORDS);
        same_rooms(course, &words, &room)?;
        let mut rooms = [0; ROWS_MAX];
        ffi::rooms(&words, &mut rooms);
        roomy += below.clone().filter(|&row| rooms[row] > 0).count();
        let fits = |row: &usize| words[row * ROW_WORDS + 1] <= rooms[*row];
        fitting += below.filter(fits).count();
    }
    if roomy < 1_000 || fitting < 1_000 {
        let text = format!("of rows below the one named, {roomy} have room, {fitting} fit");
        return Err(Difference(text));
    }
    Ok(())
}

/// Makes the costs small, so that there is room below, and one of them past its row's D.
fn lower_costs(course: &mut Course, words: &mut [u32]) {
    let rng = &mut course.rng;
    let rows = words.len() / ROW_WORDS;
    for row in words.chunks_exact_mut(ROW_WORDS) {
        row[1] = 1 + row[1] / rng.word(1, 2 * rows as u32);
    }
    let row = rng.index(rows) * ROW_WORDS;
    words[row + 1] = words[row + 3] + rng.word(1, 3);
}
