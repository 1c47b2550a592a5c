//! Faults in the first line, in the number of rows, in the rows, and anywhere.

use peer::gen::{damaged_text, report_input, special_inputs, special_texts};
use peer::table::{ROWS_MAX, ROW_WORDS};

use super::{input_of, near, same_report, same_report_in};
use crate::course::{Compared, Course};
use crate::draw::{faults_in, miswritten, nameable, one_row_with, rubbish_after, sound, with_crs};
use crate::draw::{FAULTS, TELLING, VALUE_MAX};

/// Of the values of the first line, one in so many is run.
const RUN_EVERY: u32 = 331;

/// Texts damaged by the second program's generator, and whole inputs.
const DAMAGED: u32 = 40_000;
const DAMAGED_INPUTS: u32 = 1_500;

/// Words whose text may be refused for its rows.
const NAMEABLE: u32 = 500;

/// Sets of faults laid into the rows of a table.
const FAULT_SETS: u32 = 80;

/// Values of the first line: sound, with leading zeros, too long, and no numbers.
const VALUES: [&[u8]; 24] = [
    b"0",
    b"00",
    b"000000",
    b"01",
    b"024",
    b"1",
    b"24",
    b"24\r",
    b"24\n",
    b"24\0",
    b"12345",
    b"99999",
    b"123456",
    b"100000",
    b"999999",
    b"4294967296",
    b"",
    b"-1",
    b"+1",
    b" 1",
    b"1 ",
    b"0x1",
    b"1e3",
    b"1.",
];

/// First lines with the key, or the sign after it, gone wrong.
const WRONG_KEYS: [&str; 5] = [
    "tick=1\n",
    "Ticks=1\n",
    "ticks 1\n",
    "ticks==1\n",
    "\u{feff}ticks=1\n",
];

fn first_line(value: &[u8]) -> Vec<u8> {
    [b"ticks=", value, b"\n"].concat()
}

/// Every value on the first line, before a text without rows; some of them before
/// one row, which is run for so long; and each miswritten.
pub fn ticks_values(course: &mut Course) -> Compared {
    let row = one_row_with(4, b"2");
    for value in 0..=VALUE_MAX {
        let line = first_line(value.to_string().as_bytes());
        same_report(course, &[&line[..], b"rows=0\n"].concat())?;
        if value % RUN_EVERY == 0 || value == VALUE_MAX {
            let row = one_row_with(3, b"3");
            same_report(course, &[line, row].concat())?;
        }
        if value % 3 == 0 {
            let line = first_line(&miswritten(&mut course.rng, value));
            same_report(course, &[line, row.clone()].concat())?;
        }
    }
    Ok(())
}

/// First lines gone wrong in each way: leading zeros, six digits, CR, no LF, no
/// line at all; before nothing, a sound text, and faulty ones.
pub fn ticks_lines(course: &mut Course) -> Compared {
    for input in special_inputs() {
        same_report_in(course, &input, near)?;
    }
    let (one, two) = (one_row_with(0, b"1"), sound(&mut course.rng, 2, 9));
    let two = peer::text::text_of(&two);
    let rests: [&[u8]; 6] = [b"", b"\n", b"rows=0\n", b"rows=33\n", &one, &two];
    for rest in rests {
        ticks_lines_before(course, rest)?;
    }
    Ok(())
}

/// The first lines with a value or a key gone wrong and those with one byte of any
/// kind, before the same rest.
fn ticks_lines_before(course: &mut Course, rest: &[u8]) -> Compared {
    for value in VALUES {
        let whole = [&first_line(value)[..], rest].concat();
        same_report_in(course, &whole, near)?;
        let without_end = [b"ticks=", value, rest].concat();
        same_report_in(course, &without_end, near)?;
    }
    for line in WRONG_KEYS {
        same_report_in(course, &[line.as_bytes(), rest].concat(), near)?;
    }
    for byte in 0..=255 {
        same_report(course, &[&[byte], rest].concat())?;
        same_report(course, &[b"ticks=", &[byte][..], rest].concat())?;
        same_report(course, &[b"ticks=7", &[byte][..], rest].concat())?;
        same_report(course, &[b"ticks=7\n", &[byte][..], rest].concat())?;
    }
    Ok(())
}

/// Numbers of rows up to 40 and far past it, with rows or rubbish after them or
/// nothing: 2 and 3 are given before any fault further on.
pub fn row_numbers(course: &mut Course) -> Compared {
    let rows = &one_row_with(0, b"1")[7..];
    let far = [
        99, 100, 256, 257, 288, 999, 10_000, 65_536, 65_537, 99_998, 99_999,
    ];
    for number in (0..=40).chain(far) {
        for ticks in [0, 1, 24, 99_999] {
            let line = format!("ticks={ticks}\nrows={number}\n").into_bytes();
            let rubbish = rubbish_after(&mut course.rng);
            for rest in [b"", rows, b"\n", b"\0", b"id=0", &rubbish] {
                // One row is the whole of it, to be run; not for 99,999 ticks each.
                if number != 1 || ticks < 99 {
                    same_report_in(course, &[&line, rest].concat(), near)?;
                }
            }
        }
    }
    for &byte in TELLING {
        for number in [0, 1, 32, 33, 99_999] {
            let line = format!("ticks=3\nrows={number}").into_bytes();
            same_report_in(course, &[&line[..], &[byte]].concat(), near)?;
        }
    }
    Ok(())
}

/// Each fault in each row of tables of several sizes, sets of faults in a row,
/// and faults in several rows: the first row's first fault is printed.
pub fn row_faults(course: &mut Course) -> Compared {
    for rows in [1, 2, 3, 9, ROWS_MAX] {
        let well = sound(&mut course.rng, rows, 30);
        for row in 0..rows {
            for round in 0..FAULTS + FAULT_SETS {
                let mut words = well.clone();
                let rng = &mut course.rng;
                let (set, over) = match round.checked_sub(FAULTS) {
                    None => (1 << round, rng.word(0, 255)),
                    Some(_) => (rng.word(0, 255), rng.word(0, 255)),
                };
                // Row 0 has no earlier row; a later one takes the id of the first.
                let earlier = words[0];
                let seven = &mut words[row * ROW_WORDS..(row + 1) * ROW_WORDS];
                faults_in(seven, set, over, earlier);
                if round % 5 == 4 {
                    let other = rng.index(rows);
                    let seven = &mut words[other * ROW_WORDS..(other + 1) * ROW_WORDS];
                    faults_in(seven, rng.word(0, 255), rng.word(0, 255), earlier);
                }
                let input = input_of(rng.word(0, 20), &words);
                same_report(course, &input)?;
            }
        }
    }
    Ok(())
}

/// Texts with up to three damages of any kind, after a sound first line; inputs
/// damaged anywhere; CRs; texts refused for their rows.
pub fn damaged(course: &mut Course) -> Compared {
    for text in special_texts() {
        same_report(course, &[b"ticks=5\n", &text[..]].concat())?;
    }
    for _ in 0..DAMAGED {
        let text = damaged_text(&mut course.rng);
        let ticks = course.rng.word(0, 30);
        let line = first_line(ticks.to_string().as_bytes());
        same_report(course, &[line, text].concat())?;
    }
    for _ in 0..DAMAGED_INPUTS {
        let input = report_input(&mut course.rng);
        same_report(course, &input)?;
    }
    for _ in 0..NAMEABLE {
        let words = nameable(&mut course.rng);
        let input = input_of(3, &words);
        same_report(course, &input)?;
        let crs = with_crs(&mut course.rng, &input);
        same_report(course, &crs)?;
    }
    Ok(())
}
