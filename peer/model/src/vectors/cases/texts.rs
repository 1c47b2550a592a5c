//! Cases on texts and on inputs of the printing program.

use super::{faults, red, rows_of, Cases, FAULTS, P};
use crate::gen::{damaged_text, good_text, longest_table, report_input, tiny_table};
use crate::gen::{seventh_line_texts, special_inputs, special_texts};
use crate::report::report;
use crate::table::ROW_WORDS;
use crate::text::text_of;

pub(super) fn readings(cases: &mut Cases) {
    let longest = text_of(&longest_table());
    cases.add_text(longest_table().len(), &longest);
    for words in P {
        for room in [words.len() - 1, words.len(), words.len() + 2, 0] {
            cases.add_text(room, &text_of(words));
        }
    }
    // Those of the line p are read one and all below.
    let specials = special_texts().len() - seventh_line_texts().len();
    for text in special_texts()[..specials].iter().step_by(4) {
        cases.add_text(ROW_WORDS + 1, text);
    }
    for (bit, past) in (0..FAULTS).flat_map(|bit| [(bit, false), (bit, true)]) {
        let mut words = faults(1 << bit, past);
        words
            .iter_mut()
            .for_each(|word| *word = (*word).min(99_999));
        cases.add_text(2 * ROW_WORDS, &text_of(&words));
    }
    for draw in [good_text, damaged_text] {
        for _ in 0..30 {
            let text = cases.short(draw);
            let words = ROW_WORDS * cases.rng.index(4);
            let room = words + cases.rng.index(8);
            cases.add_text(room, &text);
        }
    }
    red::readings(cases);
}

pub(super) fn writings(cases: &mut Cases) {
    for words in P
        .iter()
        .map(|words| words.to_vec())
        .chain([longest_table()])
    {
        let length = text_of(&words).len();
        for room in [length - 1, length, length + 2] {
            cases.add(&[room as u64], &words);
        }
    }
    for length in 0..=15 {
        cases.add(&[length as u64 % 2], &rows_of(4)[..length]);
    }
    cases.add(&[0], &rows_of(33));
    for set in 0..1 << FAULTS {
        cases.add(&[u64::from(set % 2)], &faults(set, set % 3 == 0));
    }
    for _ in 0..40 {
        let words = cases.few_rows(tiny_table);
        let length = text_of(&words).len() + cases.rng.index(3);
        cases.add(&[length as u64 - 1], &words);
    }
}

pub(super) fn reports(cases: &mut Cases) {
    for (words, ticks) in P.iter().flat_map(|words| [0, 1, 24].map(|n| (words, n))) {
        let input = [format!("ticks={ticks}\n").into_bytes(), text_of(words)].concat();
        let length = report(&input).len();
        cases.add_text(length, &input);
        cases.add_text(length - 1, &input);
    }
    for input in special_inputs().iter().step_by(3) {
        cases.add_text(20, input);
    }
    for _ in 0..30 {
        let input = cases.short(report_input);
        let room = report(&input).len() + cases.rng.index(3);
        cases.add_text(room, &input);
    }
    red::reports(cases);
}
