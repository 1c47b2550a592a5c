//! Small changes to good inputs, each at every place, and every beginning.

use peer::gen::longest_table;
use peer::table::ROWS_MAX;

use super::{input_of, same_print, same_report, Printed};
use crate::course::{Compared, Course, Difference};
use crate::draw::{
    byte_room, changed, deleted, every_change, inserted, limit_pair, short_text, sound, widest,
};
use crate::draw::{Shape, TELLING};
use crate::place;

/// Inputs of one row, each byte of which takes every value.
const ONE_ROW: u32 = 4;

/// Inputs of two and three rows, for telling bytes.
const FEW_ROWS: u32 = 8;

/// Every byte in place of each, and before each and at the end.
pub fn every_byte(course: &mut Course) -> Compared {
    let every: Vec<u8> = (0..=255).collect();
    for _ in 0..ONE_ROW {
        let ticks = course.rng.word(0, 9);
        let line = format!("ticks={ticks}\n").into_bytes();
        let text = short_text(&mut course.rng, 1);
        same_changed(course, &[line, text].concat(), &every)?;
    }
    Ok(())
}

/// The same with telling bytes: document 01's own input, and drawn ones.
pub fn telling(course: &mut Course) -> Compared {
    let sample = place::sample("documents_example");
    let sample = sample.map_err(|error| Difference(error.to_string()))?;
    same_changed(course, &sample.input, TELLING)?;
    for round in 0..FEW_ROWS {
        let ticks = course.rng.word(0, 99);
        let line = format!("ticks={ticks}\n").into_bytes();
        let text = short_text(&mut course.rng, 2 + round as usize % 2);
        same_changed(course, &[line, text].concat(), TELLING)?;
    }
    Ok(())
}

/// The same with few bytes, in an admitted input of 32 rows; and in the longest that is accepted and in the longest of the form each byte made one
/// that stands nowhere, or left out.
pub fn many_rows(course: &mut Course) -> Compared {
    let shape = Shape {
        rows: ROWS_MAX,
        t_low: 128,
        t_high: 640,
    };
    let full = limit_pair(&mut course.rng, shape).within;
    let few = [b'0', b'9', b'=', b'\n', b'\r', 0];
    same_changed(course, &input_of(2, &full), &few)?;
    for words in [longest_table(), widest(&mut course.rng)] {
        let input = input_of(99_999, &words);
        for at in 0..input.len() {
            same_report(course, &changed(&input, at, 255))?;
            same_report(course, &inserted(&input, at, b"\r"))?;
        }
        let input = input_of(1, &words);
        for at in (0..input.len()).step_by(5) {
            same_report(course, &deleted(&input, at, 1))?;
        }
    }
    Ok(())
}

/// Every such change of a text.
fn same_changed(course: &mut Course, text: &[u8], bytes: &[u8]) -> Compared {
    for changed in every_change(text, bytes) {
        same_report(course, &changed)?;
    }
    Ok(())
}

/// Every beginning of inputs of several sizes: alone, and with the rest of the
/// input right after it in memory.
pub fn early(course: &mut Course) -> Compared {
    let mut inputs = vec![
        input_of(99_999, &longest_table()),
        input_of(99_999, &widest(&mut course.rng)),
    ];
    for rows in [1, 2, 3, 5, 8, 16, ROWS_MAX] {
        inputs.push(input_of(9, &sound(&mut course.rng, rows, 99)));
    }
    for input in inputs {
        for length in 0..=input.len() {
            let (cut, rest) = input.split_at(length);
            let printed = Printed::of(cut);
            for after in [b"", rest] {
                let room = byte_room(&mut course.rng, printed.len());
                same_print(course, (cut, after), &printed, &room)?;
            }
        }
    }
    Ok(())
}
