//! "Verdict": admitted or not, and the response times in the lent room.
//!
//! The judge is the second program's walk over every tick, in which jobs are counted
//! one by one; its leaps, which go by the formulas, must come to the same, and so must
//! the verdict that asks for each row's room.

use peer::brute::verdict::verdict;
use peer::gen::{loaded_table, tiny_table};
use peer::pattern::{EVEN, RED};
use peer::rooms::verdict_by_rooms;
use peer::table::{ROWS_MAX, ROW_WORDS};
use peer::verdict::verdict_leaping;

use super::Comparison;
use crate::course::{shown, Compared, Course};
use crate::draw::{apart, around_limit, far_tables, limit_pair, room, room_of};
use crate::draw::{slow_table, sound};
use crate::draw::{LimitPair, Shape};
use crate::ffi;
use crate::lent::Lent;

pub const ALL: &[Comparison] = &[
    Comparison::drawn("verdict_rooms", &[0, 11, 13], rooms),
    Comparison::fixed("verdict_small", &[0, 11], small),
    Comparison::drawn("verdict_drawn", &[0, 11, 13], drawn),
    Comparison::drawn("verdict_limit", &[0, 11, 13], limit),
    Comparison::drawn("verdict_slow", &[0, 11, 13], slow),
    Comparison::drawn("verdict_large", &[0, 11, 13], large),
];

/// Tables drawn with periods of up to a thousand ticks.
const DRAWN: u32 = 300_000;

/// Pairs on both sides of the limit, with periods of up to a few thousand.
const LIMITS: u32 = 20_000;

/// Tables whose search takes many steps.
const SLOW: u32 = 4_000;

/// Rounds of tables with periods of up to 65,535 ticks, five tables to a round.
const LARGE: u32 = 4_000;

/// Both verdicts, and every word that was lent for them.
pub fn same_verdict(course: &mut Course, words: &[u32], room: &[u32]) -> Compared {
    let mut lent_words = Lent::new(&mut course.rng, words);
    let mut lent_room = Lent::new(&mut course.rng, room);
    let first = ffi::verdict_lent(&mut lent_words, &mut lent_room);
    let (mut filled, mut leapt, mut roomed) = (room.to_vec(), room.to_vec(), room.to_vec());
    let peer = verdict(words, &mut filled);
    let by_rooms = verdict_by_rooms(words, &mut roomed) == peer && roomed == filled;
    let alike = verdict_leaping(words, &mut leapt) == peer && leapt == filled && by_rooms;
    let same = alike && first == peer && lent_words.holds(words) && lent_room.holds(&filled);
    course.settle(peer, same, || {
        format!(
            "verdict on {words:?}\nroom before {room:?}\n\
             first {} room {:?}\npeer  {} room {filled:?}, by leaps {leapt:?}, \
             by rooms {roomed:?}\naltered beside the room {:?}\n\
             table after {:?}\naltered beside the table {:?}",
            shown(first),
            lent_room.words(),
            shown(peer),
            lent_room.altered_beside(),
            lent_words.words(),
            lent_words.altered_beside(),
        )
    })
}

/// The verdict into a drawn room.
fn same_drawn(course: &mut Course, words: &[u32]) -> Compared {
    let room = room(&mut course.rng, words.len() / ROW_WORDS);
    same_verdict(course, words, &room)
}

/// Every length of room around the one needed, for every number of rows.
fn rooms(course: &mut Course) -> Compared {
    for rows in 1..=ROWS_MAX {
        let shape = Shape {
            rows,
            t_low: 4 * ROWS_MAX as u32,
            t_high: 400,
        };
        let LimitPair { within, past } = limit_pair(&mut course.rng, shape);
        for words in [within, past, sound(&mut course.rng, rows, 100)] {
            for length in (0..=rows + 4).chain([2 * ROWS_MAX]) {
                let room = room_of(&mut course.rng, length);
                same_verdict(course, &words, &room)?;
            }
        }
    }
    Ok(())
}

/// m, k and p of a row.
pub type Pair = [u32; 3];

/// Every pair with k up to `k_max`, even, and deeply-red where that is another pattern.
pub fn small_pairs(k_max: u32) -> Vec<Pair> {
    let pairs = (1..=k_max).flat_map(|k| (1..=k).map(move |m| (m, k)));
    let both = pairs.flat_map(|(m, k)| [[m, k, EVEN], [m, k, RED]]);
    both.filter(|&[m, k, p]| p == EVEN || apart(m, k)).collect()
}

/// Every row with T up to `t_max`, C up to one past D, and one of these pairs.
pub fn small_rows(t_max: u32, pairs: &[Pair]) -> Vec<[u32; 6]> {
    let mut rows = Vec::new();
    for (t, &[m, k, p]) in (1..=t_max).flat_map(|t| pairs.iter().map(move |pair| (t, pair))) {
        for d in 1..=t {
            rows.extend((1..=d + 1).map(|c| [c, t, d, m, k, p]));
        }
    }
    rows
}

/// A table of these rows, with their numbers for ids.
pub fn small_table(rows: &[[u32; 6]]) -> Vec<u32> {
    let row = |(at, row): (usize, &[u32; 6])| [&[at as u32 + 1], &row[..]].concat();
    rows.iter().enumerate().flat_map(row).collect()
}

/// All small tables of one, two and three rows.
fn small(course: &mut Course) -> Compared {
    for row in small_rows(12, &small_pairs(6)) {
        same_drawn(course, &small_table(&[row]))?;
    }
    let rows = small_rows(5, &small_pairs(4));
    for (&a, &b) in rows.iter().flat_map(|a| rows.iter().map(move |b| (a, b))) {
        same_drawn(course, &small_table(&[a, b]))?;
    }
    let rows = small_rows(3, &[[1, 1, RED], [1, 2, EVEN], [2, 4, EVEN], [2, 4, RED]]);
    for (&a, &b) in rows.iter().flat_map(|a| rows.iter().map(move |b| (a, b))) {
        for &c in &rows {
            same_drawn(course, &small_table(&[a, b, c]))?;
        }
    }
    Ok(())
}

/// Tables near full load, tiny ones, and ones of any number of rows.
fn drawn(course: &mut Course) -> Compared {
    for _ in 0..DRAWN {
        let rng = &mut course.rng;
        let words = match rng.below(8) {
            0..=5 => loaded_table(rng),
            6 => tiny_table(rng),
            _ => {
                let rows = 1 + rng.index(ROWS_MAX);
                sound(rng, rows, 1_000)
            }
        };
        same_drawn(course, &words)?;
    }
    Ok(())
}

/// Tables that one unit of work more makes unschedulable, and those with it.
fn limit(course: &mut Course) -> Compared {
    for _ in 0..LIMITS {
        for words in around_limit(&mut course.rng) {
            same_drawn(course, &words)?;
        }
    }
    Ok(())
}

/// Tables with next to no tick free above their last row.
fn slow(course: &mut Course) -> Compared {
    for _ in 0..SLOW {
        let words = slow_table(&mut course.rng);
        same_drawn(course, &words)?;
    }
    Ok(())
}

/// Periods and deadlines up to the ends of their ranges.
fn large(course: &mut Course) -> Compared {
    for round in 0..LARGE {
        // The walk is long; few of these tables have many rows.
        let rows = if round % 20 == 0 { ROWS_MAX } else { 6 };
        for words in far_tables(&mut course.rng, rows) {
            same_drawn(course, &words)?;
        }
    }
    Ok(())
}
