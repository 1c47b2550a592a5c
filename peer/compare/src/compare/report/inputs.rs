//! Good inputs: tables admitted and not, ticks few and many, and rooms.

use peer::gen::{boundary_table, loaded_table, longest_table, tiny_table, wide_table};
use peer::report::{report, report_into};
use peer::rng::Rng;
use peer::table::{ROWS_MAX, ROW_WORDS};

use super::{input_of, near, same_report, same_report_in, ENOUGH};
use crate::course::{shown, Compared, Course, Difference};
use crate::draw::{any_shape, limit_pair, slow_table, sound, VALUE_MAX};
use crate::ffi;
use crate::place;

/// Tables of short periods.
const DRAWN: u32 = 40_000;

/// Tables of any periods: the second program walks through every tick.
const WIDE: u32 = 400;

/// Pairs of tables on both sides of the limit.
const PAIRS: u32 = 1_500;

/// The longest a printing of a sample may be for every length of room to be tried.
const SHORT: usize = 400;

/// The samples: what stands beside each is what both print, in rooms of every
/// length where that is short.
pub fn samples(course: &mut Course) -> Compared {
    let samples = place::samples().map_err(|error| Difference(error.to_string()))?;
    if samples.is_empty() {
        return Err(Difference(String::from("there are no samples")));
    }
    for sample in samples {
        let out = report(&sample.input);
        if out != sample.out {
            let (path, out) = (sample.path.display(), out.escape_ascii());
            let text = format!("{path}: peer prints {out}");
            return Err(Difference(text));
        }
        same_report_in(course, &sample.input, |needed| match needed {
            0..=SHORT => (0..=needed + 20).chain([ENOUGH]).collect(),
            _ => near(needed),
        })?;
    }
    Ok(())
}

/// Ticks for a table of short periods, few of them many.
fn ticks(rng: &mut Rng) -> u32 {
    match rng.below(1_000) {
        0 => rng.choose(&[VALUE_MAX, 99_998, 65_536]).unwrap_or(0),
        1 => rng.word(0, VALUE_MAX),
        2..=9 => rng.word(0, 9_999),
        10..=109 => 0,
        110..=209 => 1,
        210..=249 => 24,
        _ => rng.word(0, 400),
    }
}

/// Tables near full load, tables of a few ticks, tables far past it.
pub fn drawn(course: &mut Course) -> Compared {
    for _ in 0..DRAWN {
        let rng = &mut course.rng;
        let table = match rng.below(8) {
            0..=4 => loaded_table(rng),
            5 | 6 => tiny_table(rng),
            _ => {
                let rows = 1 + rng.index(ROWS_MAX);
                sound(rng, rows, 60)
            }
        };
        let input = input_of(ticks(rng), &table);
        same_report(course, &input)?;
    }
    Ok(())
}

/// Fields at the ends of their ranges, any fields, searches through many ticks,
/// and the longest text; one in eight of them for as long as the first line can
/// ask.
pub fn wide(course: &mut Course) -> Compared {
    for round in 0..WIDE {
        let rng = &mut course.rng;
        let table = match round % 8 {
            0..=2 => boundary_table(rng),
            3 | 4 => wide_table(rng),
            5 | 6 => slow_table(rng),
            _ => longest_table(),
        };
        let ticks = match rng.below(8) {
            0 => VALUE_MAX,
            1 => rng.word(0, VALUE_MAX),
            _ => rng.word(0, 500),
        };
        let input = input_of(ticks, &table);
        same_report(course, &input)?;
    }
    Ok(())
}

/// "If unschedulable, the first line is `verdict=unschedulable`": the same table
/// with one unit of work more in one row.
pub fn limit(course: &mut Course) -> Compared {
    for _ in 0..PAIRS {
        let rng = &mut course.rng;
        let shape = any_shape(rng);
        let rows = shape.rows;
        let pair = limit_pair(rng, shape);
        let ticks = rng.word(0, 60 * rows as u32);
        for table in [&pair.within, &pair.past] {
            let input = input_of(ticks, table);
            same_report(course, &input)?;
        }
    }
    Ok(())
}

/// Every row of tables of every size the first that does not fit, its C one past
/// its D, and rows below it that do not fit either or do: their D is so much longer that
/// they have room.
pub fn misfits(course: &mut Course) -> Compared {
    for rows in 1..=ROWS_MAX {
        let rng = &mut course.rng;
        let mut light = sound(rng, rows, 9);
        for (row, seven) in light.chunks_exact_mut(ROW_WORDS).enumerate() {
            seven[1] = 1;
            seven[2] = 40 + 200 * row as u32;
            seven[3] = 32 + 200 * row as u32;
        }
        same_report_in(course, &input_of(100, &light), near)?;
        for row in 0..rows {
            let mut table = light.clone();
            table[row * ROW_WORDS + 1] = table[row * ROW_WORDS + 3] + 1;
            let below = row + course.rng.index(rows - row);
            if below > row && course.rng.once_in(2) {
                table[below * ROW_WORDS + 1] = 65_535;
            }
            let ticks = course.rng.word(0, 200);
            same_report_in(course, &input_of(ticks, &table), near)?;
        }
    }
    Ok(())
}

/// Rooms around the length that is printed, and every shorter length for a
/// refusal; tables of every size.
pub fn rooms(course: &mut Course) -> Compared {
    for rows in 1..=ROWS_MAX {
        let rng = &mut course.rng;
        let well = sound(rng, rows, 40);
        let mut faulty = well.clone();
        faulty[ROW_WORDS * rng.index(rows)] = 0;
        let input = input_of(rng.word(0, 50), &well);
        let cut = input[..input.len() - 1].to_vec();
        for input in [input, input_of(7, &faulty), cut] {
            same_report_in(course, &input, |needed| {
                let around = needed.saturating_sub(24)..=needed + 24;
                let far = [1, 2, 16, needed / 2, ENOUGH - 1, ENOUGH, ENOUGH + 1, 9_999];
                around.chain(far).collect()
            })?;
        }
    }
    empty_slices(course)
}

/// Slices without any memory behind them, as a Rust caller may lend.
fn empty_slices(course: &mut Course) -> Compared {
    let good = input_of(1, &[1, 1, 1, 1, 1, 1, 1]);
    for input in [&b""[..], b"ticks=0\nrows=0\n", &good] {
        let (first, peer) = (ffi::report(input, &mut []), report_into(input, &mut []));
        course.settle(peer, first == peer, || {
            let (input, first, peer) = (input.escape_ascii(), shown(first), shown(peer));
            format!("printing, no room, {input}: {first} {peer}")
        })?;
    }
    let (mut first_room, mut peer_room) = ([7; 32], [7; 32]);
    let first = ffi::report(&[], &mut first_room);
    let peer = report_into(&[], &mut peer_room);
    course.settle(peer, first == peer && first_room == peer_room, || {
        let (first, peer) = (shown(first), shown(peer));
        format!("printing, no input: {first} {first_room:?} {peer} {peer_room:?}")
    })
}
