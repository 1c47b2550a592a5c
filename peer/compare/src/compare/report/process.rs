//! The printing program itself, from standard input to standard output.

use peer::gen::{loaded_table, report_input, special_inputs, tiny_table};
use peer::report::report;
use peer::rng::Rng;

use super::far::{far_inputs, longest_inputs};
use super::{input_of, outcome};
use crate::course::{Compared, Course};
use crate::place;
use crate::process::{failed, ran, Feed, NOTHING};

/// Drawn inputs written in one piece, good ones and as many of any kind.
const WHOLE: u32 = 150;

/// Inputs written byte by byte, and in pieces.
const BYTES: u32 = 25;
const PIECES: u32 = 60;

/// Rounds of inputs of a megabyte.
const FAR: u32 = 8;
const MEGABYTE: usize = 1 << 20;

/// Every byte of standard output, none on the other, and a good end.
fn same_output(course: &mut Course, input: &[u8], feed: Feed) -> Compared {
    let program = place::stand().map_err(failed)?;
    let output = ran(&program, input, feed).map_err(failed)?;
    let peer = report(input);
    let same = output.stdout == peer && output.stderr.is_empty() && output.status.success();
    course.settle(outcome(&peer), same, || {
        let shown = &input[..input.len().min(4_096)];
        format!(
            "input of {} bytes, {feed:?}, the first of them\n{}\nfirst {} prints {}\n\
             standard error {}\npeer prints {}",
            input.len(),
            shown.escape_ascii(),
            output.status,
            output.stdout.escape_ascii(),
            output.stderr.escape_ascii(),
            peer.escape_ascii(),
        )
    })
}

/// A good input, one in eight of them for many ticks.
fn good_input(rng: &mut Rng) -> Vec<u8> {
    let table = match rng.below(3) {
        0 => tiny_table(rng),
        _ => loaded_table(rng),
    };
    let ticks = match rng.below(8) {
        0 => 99_999,
        1 => 0,
        _ => rng.word(0, 2_000),
    };
    input_of(ticks, &table)
}

/// Good inputs, damaged ones, the special ones and the longest, in one piece.
pub fn whole(course: &mut Course) -> Compared {
    for _ in 0..WHOLE {
        let good = good_input(&mut course.rng);
        same_output(course, &good, Feed::Whole)?;
        let any = report_input(&mut course.rng);
        same_output(course, &any, Feed::Whole)?;
    }
    for input in special_inputs() {
        same_output(course, &input, Feed::Whole)?;
    }
    for input in longest_inputs(&mut course.rng) {
        same_output(course, &input, Feed::Whole)?;
    }
    Ok(())
}

/// Inputs that come byte by byte, and in a few pieces cut anywhere: the program
/// is given less than it asks for, again and again.
pub fn pieces(course: &mut Course) -> Compared {
    for round in 0..BYTES {
        let input = match round % 4 {
            0 => report_input(&mut course.rng),
            _ => good_input(&mut course.rng),
        };
        same_output(course, &input, Feed::Bytes)?;
    }
    for round in 0..PIECES {
        let rng = &mut course.rng;
        let input = match round % 4 {
            0 => report_input(rng),
            _ => good_input(rng),
        };
        let count = 1 + rng.index(12);
        let mut ends: Vec<usize> = (0..count).map(|_| rng.index(input.len() + 1)).collect();
        ends.sort_unstable();
        same_output(course, &input, Feed::Pieces(&ends))?;
    }
    Ok(())
}

/// No byte at all, in every way there is.
pub fn nothing(course: &mut Course) -> Compared {
    for feed in NOTHING {
        same_output(course, b"", feed)?;
    }
    Ok(())
}

/// The samples, out of their files and in every other way.
pub fn files(course: &mut Course) -> Compared {
    let samples = place::samples().map_err(failed)?;
    for sample in samples {
        for feed in [Feed::File(&sample.path), Feed::Whole, Feed::Bytes] {
            same_output(course, &sample.input, feed)?;
        }
        let lines = sample.input.iter().enumerate();
        let lines = lines.filter(|(_, byte)| **byte == b'\n');
        let ends: Vec<usize> = lines.map(|(at, _)| at + 1).collect();
        same_output(course, &sample.input, Feed::Pieces(&ends))?;
    }
    Ok(())
}

/// Inputs of a megabyte, more than a pipe holds: in one piece, and the good part
/// first.
pub fn far(course: &mut Course) -> Compared {
    for _ in 0..FAR {
        for input in far_inputs(&mut course.rng, MEGABYTE) {
            same_output(course, &input, Feed::Whole)?;
            let cut = course.rng.index(2_000);
            same_output(course, &input, Feed::Pieces(&[cut, cut + 70_000]))?;
        }
    }
    for input in longest_inputs(&mut course.rng).iter().step_by(4) {
        same_output(course, input, Feed::Pieces(&[1_428, 1_523]))?;
    }
    Ok(())
}
