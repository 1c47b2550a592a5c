//! "a table admitted with some rows deeply-red is admitted with those rows even", and no
//! response time grows: on the first program's verdicts alone.

use peer::dispatch::P;
use peer::gen::{loaded_table, table, tiny_table};
use peer::pattern::{EVEN, RED};
use peer::table::{ROWS_MAX, ROW_WORDS};

use crate::course::{shown, Compared, Course, Difference};
use crate::draw::{any_shape, full_table, limit_pair, short_cycle_pair, Patterns, Shape};
use crate::ffi;

/// Tables of which every set of the deeply-red rows is made even.
const SUBSETS: u32 = 3_000;

/// Tables of any number of rows, and how many sets are drawn for each.
const DRAWN: u32 = 12_000;
const SETS: u32 = 6;

/// How often a response time fell, and how often a table was admitted that is not so
/// with its rows deeply-red: without either nothing was told apart.
#[derive(Default)]
struct Seen {
    shorter: u32,
    lost: u32,
}

impl Seen {
    fn reached(&self) -> Compared {
        let Seen { shorter, lost } = self;
        if *shorter > 0 && *lost > 0 {
            return Ok(());
        }
        Err(Difference(format!("{shorter} shorter, {lost} lost")))
    }
}

/// The first program's verdict, and the response times.
fn judged(words: &[u32]) -> (peer::answer::Answer, [u32; ROWS_MAX]) {
    let mut room = [0; ROWS_MAX];
    (ffi::verdict(words, &mut room), room)
}

/// The deeply-red rows of a table.
fn red_rows(words: &[u32]) -> Vec<usize> {
    let rows = words.chunks_exact(ROW_WORDS).enumerate();
    rows.filter(|(_, row)| row[P] == RED)
        .map(|(at, _)| at)
        .collect()
}

/// The table with a set of those rows even, against the table as it was: admitted if
/// it was, and no response time longer; so also if it was turned down at a later row.
fn same_eased(course: &mut Course, words: &[u32], even: &[usize], seen: &mut Seen) -> Compared {
    let mut eased = words.to_vec();
    for row in even {
        eased[row * ROW_WORDS + P] = EVEN;
    }
    let (before, responses) = judged(words);
    let (after, shorter) = judged(&eased);
    let kept = match (before.refusal, after.refusal) {
        (0, 0) => shorter.iter().zip(&responses).all(|(now, was)| now <= was),
        // Turned down both times: no earlier row than before.
        (11, 11) => after.value >= before.value,
        (11, 0) => true,
        _ => false,
    };
    seen.shorter += u32::from(before.is_accepted() && shorter != responses);
    seen.lost += u32::from(!before.is_accepted() && after.is_accepted());
    course.settle(before, kept, || {
        let (before, after) = (shown(before), shown(after));
        format!("table {words:?}\n{before} {responses:?}\nrows {even:?} even\n{after} {shorter:?}")
    })
}

/// Tables of few rows, just admitted or full: every set of their deeply-red rows.
pub fn subsets(course: &mut Course) -> Compared {
    let mut seen = Seen::default();
    for round in 0..SUBSETS {
        let rng = &mut course.rng;
        let rows = 1 + rng.index(5);
        let shape = Shape {
            rows,
            t_low: 4 * rows as u32,
            t_high: rng.word(8 * rows as u32, 400),
        };
        let words = match round % 4 {
            0 => limit_pair(rng, shape).within,
            1 => limit_pair(rng, shape).past,
            2 => short_cycle_pair(rng, rows).within,
            _ => full_table(rng, shape, Patterns::Red),
        };
        let red = red_rows(&words);
        for set in 0..1u32 << red.len() {
            let numbered = red.iter().enumerate();
            let chosen = numbered.filter(|(bit, _)| set >> bit & 1 == 1);
            let even: Vec<usize> = chosen.map(|(_, row)| *row).collect();
            same_eased(course, &words, &even, &mut seen)?;
        }
    }
    seen.reached()
}

/// Tables of any number of rows: one of their deeply-red rows, all, and drawn sets.
pub fn drawn(course: &mut Course) -> Compared {
    let mut seen = Seen::default();
    for round in 0..DRAWN {
        let rng = &mut course.rng;
        let words = match round % 8 {
            0 => table(rng),
            1 | 2 => tiny_table(rng),
            3 | 4 => loaded_table(rng),
            _ => {
                let shape = any_shape(rng);
                limit_pair(rng, shape).within
            }
        };
        let red = red_rows(&words);
        if red.is_empty() {
            continue;
        }
        same_eased(course, &words, &red, &mut seen)?;
        let one = red[course.rng.index(red.len())];
        same_eased(course, &words, &[one], &mut seen)?;
        for _ in 0..SETS {
            let even: Vec<usize> = red
                .iter()
                .copied()
                .filter(|_| course.rng.once_in(2))
                .collect();
            same_eased(course, &words, &even, &mut seen)?;
        }
    }
    seen.reached()
}
