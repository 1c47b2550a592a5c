//! The programs themselves, from standard input to standard output and standard error.

use peer::answer::Answer;
use peer::convert::{carried, program, Way};
use peer::gen::{carried_text, even, form_read, longest_table, mixed_forms, table};
use peer::rng::Rng;
use peer::table::{ROWS_MAX, ROW_WORDS};

use super::inputs::{even_rows, good};
use crate::course::{Compared, Course, Difference};
use crate::draw::{rubbish_after, TELLING};
use crate::place;
use crate::process::{failed, ran, Feed, NOTHING};

/// Drawn inputs in one piece, good ones and as many damaged ones, on either way.
const WHOLE: u32 = 60;

/// Inputs in pieces, on either way.
const PIECES: u32 = 20;

/// Every byte of standard output and of standard error, and a good end.
fn same_output(course: &mut Course, way: Way, input: &[u8], feed: Feed) -> Compared {
    let converter = place::converter(way).map_err(failed)?;
    let output = ran(&converter, input, feed).map_err(failed)?;
    let due = program(way, input);
    let peer = carried(way, input).map_or_else(|refused| refused, |_| Answer::accepted(0));
    let same = output.stdout == due.text && output.stderr == due.refused;
    course.settle(peer, same && output.status.success(), || {
        let shown = &input[..input.len().min(4_096)];
        format!(
            "{way:?}, input of {} bytes, {feed:?}, the first of them\n{}\n\
             first {} standard output\n{}\nstandard error\n{}\n\
             peer standard output\n{}\nstandard error\n{}",
            input.len(),
            shown.escape_ascii(),
            output.status,
            output.stdout.escape_ascii(),
            output.stderr.escape_ascii(),
            due.text.escape_ascii(),
            due.refused.escape_ascii(),
        )
    })
}

/// First lines alone, and rows of each form after them.
const SPECIAL: [&[u8]; 10] = [
    b"\n",
    b"rows",
    b"rows=0\n",
    b"rows=0\nrubbish",
    b"rows=33\n",
    b"rows=99999\n\0",
    b"rows=1\r\n",
    b"ticks=1\nrows=1\n",
    b"rows=1\nid=0\nc=1\nt=1\nd=1\nm=1\nk=1\n",
    b"rows=1\nid=0\nc=1\nt=1\nd=1\nm=1\nk=1\np=0\n",
];

/// Good texts, damaged ones, those of the other form and of both, and special ones.
pub fn whole(course: &mut Course, way: Way) -> Compared {
    for round in 0..WHOLE {
        let rng = &mut course.rng;
        let words = table(rng);
        let text = match round % 6 {
            0 => form_read(way, &words),
            1 => form_read(way.back(), &even(&words)),
            2 => mixed_forms(rng, &words),
            _ => form_read(way, &even(&words)),
        };
        same_output(course, way, &text, Feed::Whole)?;
        let any = carried_text(&mut course.rng, way);
        same_output(course, way, &any, Feed::Whole)?;
    }
    for text in SPECIAL {
        same_output(course, way, text, Feed::Whole)?;
    }
    for p in [0, 1, 2] {
        let mut words = even_rows(&mut course.rng, 3);
        words[2 * ROW_WORDS - 1] = p;
        same_output(course, way, &form_read(way, &words), Feed::Whole)?;
    }
    Ok(())
}

/// Inputs that come byte by byte, and in a few pieces cut anywhere.
pub fn pieces(course: &mut Course) -> Compared {
    for (round, way) in (0..PIECES).flat_map(|round| [(round, Way::ToNew), (round, Way::ToOld)]) {
        let rng = &mut course.rng;
        let input = match round % 4 {
            0 => carried_text(rng, way),
            1 => {
                let text = good(rng, way, 2);
                text[..text.len() - 1].to_vec()
            }
            _ => {
                let rows = 1 + rng.index(ROWS_MAX);
                good(rng, way, rows)
            }
        };
        if round % 5 == 4 {
            same_output(course, way, &input, Feed::Bytes)?;
            continue;
        }
        let count = 1 + rng.index(12);
        let mut ends: Vec<usize> = (0..count).map(|_| rng.index(input.len() + 1)).collect();
        ends.sort_unstable();
        same_output(course, way, &input, Feed::Pieces(&ends))?;
    }
    Ok(())
}

/// No byte at all, in every way there is.
pub fn nothing(course: &mut Course) -> Compared {
    for way in [Way::ToNew, Way::ToOld] {
        for feed in NOTHING {
            same_output(course, way, b"", feed)?;
        }
    }
    Ok(())
}

/// The samples of old task files: what stands beside each is what both put out.
pub fn samples(course: &mut Course) -> Compared {
    for sample in place::old_samples().map_err(failed)? {
        let due = program(sample.way, &sample.input);
        if due != sample.output {
            let text = format!("{}: peer puts out {due:?}", sample.path.display());
            return Err(Difference(text));
        }
        for feed in [Feed::File(&sample.path), Feed::Whole, Feed::Bytes] {
            same_output(course, sample.way, &sample.input, feed)?;
        }
    }
    Ok(())
}

/// A text and what comes after it, so that the whole is of this length.
fn tailed(rng: &mut Rng, text: &[u8], length: usize) -> Vec<u8> {
    let tail = length.saturating_sub(text.len());
    let byte = rng.choose(TELLING).unwrap_or(0);
    let any = rng.once_in(2);
    let after = (0..tail).map(|_| if any { rng.bits() as u8 } else { byte });
    text.iter()
        .copied()
        .chain(after.collect::<Vec<u8>>())
        .collect()
}

/// The longest texts, and inputs around 2,048 bytes and far past it: a good text with a
/// tail, one whose rows are at fault, first lines that are refused whatever follows, and
/// rubbish from the start. The answer is that of the whole input.
pub fn long(course: &mut Course, way: Way) -> Compared {
    let longest = form_read(way, &even(&longest_table()));
    let nines = form_read(way, &vec![99_999; ROWS_MAX * ROW_WORDS]);
    for text in [&longest, &nines] {
        same_output(course, way, text, Feed::Whole)?;
        for more in [&b"\n"[..], b"p=0\n", b"0"] {
            same_output(course, way, &[text, more].concat(), Feed::Whole)?;
        }
    }
    let rows = 1 + course.rng.index(ROWS_MAX);
    let good = good(&mut course.rng, way, rows);
    let faulty = good[..good.len() - 1].to_vec();
    let starts = [&longest, &nines, &good, &faulty];
    let lines = [&b"rows=0\n"[..], b"rows=33\n", b"rows=", b"rows=32\n", b""];
    let starts = starts.map(|start| &start[..]).into_iter().chain(lines);
    for start in starts {
        for length in [2_047, 2_048, 2_049, 5_000, 70_000] {
            let input = tailed(&mut course.rng, start, length);
            same_output(course, way, &input, Feed::Whole)?;
        }
        let length = 3_000 + course.rng.index(60_000);
        let input = tailed(&mut course.rng, start, length);
        same_output(course, way, &input, Feed::Pieces(&[start.len(), 2_048]))?;
    }
    let further = rubbish_after(&mut course.rng);
    same_output(course, way, &[&longest[..], &further].concat(), Feed::Whole)
}
