//! The stored cases themselves: document 01's examples, ends of ranges, every
//! refusal, and drawn tables and states, sound and damaged. They are the same
//! whenever they are written.

mod carried;
mod counts;
mod red;
mod replays;
mod rooms;
mod states;
mod tables;
mod texts;

use super::{line, WORDS_MAX};
use crate::gen::{faulty_table, job_question, table};
use crate::pattern::K_MAX;
use crate::rng::Rng;
use crate::table::{ROW_WORDS, WORD_MAX};
use carried::{to_new, to_old};
use counts::{counts, held};
use replays::replays;
use rooms::rooms;
use states::{runs, starts};
use tables::{checks, verdicts};
use texts::{readings, reports, writings};

/// P5 to P10 of document 01, in its order, and then P12, each row with p 0.
const P: [&[u32]; 7] = [
    &[11, 2, 4, 4, 1, 2, 0, 12, 4, 6, 6, 2, 3, 0],
    &[11, 2, 4, 4, 1, 2, 0, 12, 5, 6, 6, 2, 3, 0],
    &[1, 2, 4, 4, 1, 1, 0, 2, 2, 5, 5, 1, 1, 0],
    &[1, 2, 4, 4, 1, 1, 0, 2, 3, 5, 5, 1, 1, 0],
    &[1, 1, 1, 1, 1, 1, 0],
    &[1, 2, 4, 1, 1, 1, 0],
    &[1, 1, 1, 1, 1, 65, 0, 0, 1, 1, 1, 1, 1, 0],
];

/// The ones of them that are tables.
const SOUND: usize = 6;

/// Words at and around the bounds of m, k and a whole word.
const EDGES: [u32; 12] = [
    0,
    1,
    2,
    63,
    64,
    65,
    66,
    128,
    256,
    65_536,
    u32::MAX - 1,
    u32::MAX,
];

/// Every case, operation by operation.
pub fn cases() -> String {
    let parts = [
        jobs, pairs, checks, verdicts, starts, runs, counts, readings, writings, reports, held,
        to_new, to_old, replays, rooms,
    ];
    let written = parts.iter().zip(1..).map(|(part, seed)| {
        let mut cases = Cases::new(seed);
        part(&mut cases);
        cases.text
    });
    written.collect()
}

/// Cases under way. Each operation draws from a seed of its own, so that cases
/// added to one leave the others as they are.
struct Cases {
    operation: u64,
    rng: Rng,
    text: String,
}

impl Cases {
    fn new(operation: u64) -> Cases {
        Cases {
            operation,
            rng: Rng::new(operation),
            text: String::new(),
        }
    }

    fn add(&mut self, head: &[u64], words: &[u32]) {
        let mut numbers = vec![self.operation];
        numbers.extend(head);
        numbers.extend(words.iter().copied().map(u64::from));
        self.text += &line(&numbers);
    }

    /// A case on a text.
    fn add_text(&mut self, room: usize, text: &[u8]) {
        let mut numbers = vec![self.operation, room as u64];
        numbers.extend(text.iter().copied().map(u64::from));
        self.text += &line(&numbers);
    }

    /// A well-formed table, mostly of a few rows.
    fn table(&mut self) -> Vec<u32> {
        self.few_rows(table)
    }

    /// A table with faults, mostly of a few rows.
    fn faulty(&mut self) -> Vec<u32> {
        self.few_rows(faulty_table)
    }

    /// A text that is not long.
    fn short(&mut self, draw: impl Fn(&mut Rng) -> Vec<u8>) -> Vec<u8> {
        loop {
            let text = draw(&mut self.rng);
            if text.len() <= 130 {
                return text;
            }
        }
    }

    fn few_rows(&mut self, draw: fn(&mut Rng) -> Vec<u32>) -> Vec<u32> {
        loop {
            let words = draw(&mut self.rng);
            let few = words.len() <= 4 * ROW_WORDS || self.rng.once_in(60);
            if few && words.len() <= WORDS_MAX {
                return words;
            }
        }
    }
}

fn jobs(cases: &mut Cases) {
    // P1 to P4, and a job more than each of them names.
    for (m, k, end) in [(2, 3, 6), (3, 5, 10), (1, 64, 65), (63, 64, 64)] {
        for job in 0..=end {
            cases.add(&[], &[m, k, job]);
        }
    }
    for (m, k) in EDGES.iter().flat_map(|m| EDGES.map(|k| (*m, k))) {
        cases.add(&[], &[m, k, 0]);
    }
    for job in [u32::MAX - 64, u32::MAX - 1, u32::MAX, 1 << 31] {
        for (m, k) in [(1, 1), (1, 2), (2, 3), (31, 63), (1, 64), (63, 64)] {
            cases.add(&[], &[m, k, job]);
        }
    }
    for _ in 0..400 {
        let (m, k, job) = job_question(&mut cases.rng);
        cases.add(&[], &[m, k, job]);
    }
}

fn pairs(cases: &mut Cases) {
    for (m, k) in (1..=K_MAX).flat_map(|k| (1..=k).map(move |m| (m, k))) {
        cases.add(&[], &[m, k]);
    }
    for (m, k) in EDGES.iter().flat_map(|m| EDGES.map(|k| (*m, k))) {
        cases.add(&[], &[m, k]);
    }
}

/// So many sound rows with the ids 1, 2, and on.
fn rows_of(rows: usize) -> Vec<u32> {
    let row = |id| [id, 1, 64, 64, 1, 2, id % 2];
    (1..=rows as u32).flat_map(row).collect()
}

/// The faults of a row in the order in which they are looked for: 4 to 9, 16, 10.
const FAULTS: u32 = 8;

/// Two sound rows, and in the second a set of those faults: bit 0 for 4. The words
/// fall short of their ranges, or go past them where `past` is set; p is far past its
/// range or just past it.
fn faults(set: u32, past: bool) -> Vec<u32> {
    let mut words = rows_of(2);
    let [id, c, t, d, m, k, p] = [7, 8, 9, 10, 11, 12, 13];
    let ends = [
        (id, WORD_MAX),
        (t, WORD_MAX),
        (d, WORD_MAX),
        (c, WORD_MAX),
        (k, K_MAX),
        (m, K_MAX),
    ];
    if set >> 7 & 1 == 1 {
        words[id] = words[0];
    }
    if set >> 6 & 1 == 1 {
        words[p] = if past { 2 } else { u32::MAX };
    }
    for (bit, (at, end)) in ends.into_iter().enumerate() {
        if set >> bit & 1 == 1 {
            words[at] = if past { end + 1 } else { 0 };
        }
    }
    words
}
