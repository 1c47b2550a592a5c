//! Cases of document 02, 5/14: replays with a log of job lengths.

use super::counts::word_at;
use super::red::mixed;
use super::states::{changes, state_at, NOWHERE, STATE_ROOMS};
use super::{rows_of, Cases, P, SOUND};
use crate::brute::replay::{releases, Release};
use crate::dispatch::{CLOCK_END, STATE_WORDS};
use crate::gen::{any_log, log, tiny_table};
use crate::table::{ROWS_MAX, ROW_WORDS};

const ROOM: u64 = STATE_WORDS as u64;

/// A log for P5: jobs of row 0 and row 1 at tick 0, then at 4, 6 and 8, both at 12, and
/// at 16.
const SHORT: [u32; 8] = [1, 2, 2, 1, 1, 2, 3, 2];

/// What C of those jobs' rows is.
const COSTS: [u32; 8] = [2, 4, 2, 4, 2, 2, 4, 2];

/// Places of a saved row's words.
const WAIT: usize = 7;
const PLACE: usize = 8;
const WORK: usize = 9;
const LEFT: usize = 10;
const KIND: usize = 11;

/// What is done to a fresh state before the replay: so many ticks, a word changed.
type Before = (u64, u64, u64);

const NOTHING: Before = (0, NOWHERE, 0);

fn add(cases: &mut Cases, before: Before, more: u32, log: &[u32], words: &[u32]) {
    add_in(cases, ROOM, before, more, log, words);
}

fn add_in(
    cases: &mut Cases,
    room: u64,
    (n, at, value): Before,
    more: u32,
    log: &[u32],
    words: &[u32],
) {
    let mut head = vec![room, n, at, value, more.into(), log.len() as u64];
    head.extend(log.iter().copied().map(u64::from));
    cases.add(&head, words);
}

/// The jobs that a table releases in so many ticks after n.
fn jobs(words: &[u32], n: u32, more: u32) -> Vec<Release> {
    releases(&state_at(words, n), more, usize::MAX)
}

pub(super) fn replays(cases: &mut Cases) {
    short_logs(cases);
    places(cases);
    no_release(cases);
    refusals(cases);
    clocks_end(cases);
    examples(cases);
    mixed_patterns(cases);
    unreached(cases);
    all_rows(cases);
    long_logs(cases);
    drawn(cases);
}

/// P5 tick by tick, and with every beginning of its log.
fn short_logs(cases: &mut Cases) {
    for more in 0..=21 {
        add(cases, NOTHING, more, &SHORT, P[0]);
    }
    for length in 0..SHORT.len() {
        add(cases, NOTHING, 24, &SHORT[..length], P[0]);
    }
    for n in [3, 4, 5, 7] {
        add(cases, (n, NOWHERE, 0), 6, &SHORT, P[0]);
    }
}

/// A number out of its range, or at the end of it, at every place of the log in turn,
/// the last ones past the stop; and two of them, of which the first is told.
fn places(cases: &mut Cases) {
    for (place, c) in COSTS.into_iter().enumerate() {
        for number in [0, c, c + 1, u32::MAX] {
            let mut log = SHORT;
            log[place] = number;
            // Places 5 and 6 are used together or not at all.
            add(cases, NOTHING, 13, &log, P[0]);
        }
        let mut log = COSTS;
        log[place] += 1;
        log[SHORT.len() - 1] = 0;
        add(cases, NOTHING, 24, &log, P[0]);
        add(cases, NOTHING, 24, &log[..6], P[0]);
    }
}

/// Ticks without a release need no log; no ticks look at no number.
fn no_release(cases: &mut Cases) {
    for (n, more) in [
        (0, 0),
        (0, 5),
        (1, 1),
        (1, 3),
        (1, 4),
        (5, 9),
        (6, 2),
        (7, 1),
    ] {
        add(cases, (n, NOWHERE, 0), more, &[], P[0]);
    }
    add(cases, (1, NOWHERE, 0), CLOCK_END - 1, &[], P[0]);
    add(cases, NOTHING, CLOCK_END, &[], P[4]);
    for log in [&[0, 0, 0][..], &[u32::MAX], &[1, 1]] {
        add(cases, NOTHING, 0, log, P[0]);
        add(cases, (4, NOWHERE, 0), 0, log, P[0]);
        add(cases, (1, NOWHERE, 0), 3, log, P[0]);
    }
}

/// Rooms that hold no state and words that are none, whatever the ticks and the log.
fn refusals(cases: &mut Cases) {
    for room in STATE_ROOMS {
        add_in(cases, room as u64, (2, NOWHERE, 0), 5, &[1, 9], P[0]);
    }
    for (at, value) in [(0, 33), (1, 1 << 32), (2, 25), (5, 0), (word_at(2, 0), 1)] {
        add(cases, (24, at, value), 3, &SHORT, P[0]);
        add(cases, (24, at, value), CLOCK_END, &[0], P[0]);
    }
    add(cases, (24, word_at(1, WORK), 5), 3, &[1, 1], P[0]);
    add(cases, NOTHING, 3, &[1], P[SOUND]);
    // Fewer numbers than the log is said to have, so that there is no table.
    cases.add(&[ROOM, 0, NOWHERE, 0, 5, 512, 1, 2, 3], &[]);
    cases.add(&[ROOM, 0, NOWHERE, 0, 5, 0], &[]);
}

/// At the clock's end, on either side of it; 15 goes by the ticks asked for, whether or
/// not the log would stop sooner, and comes before 18.
fn clocks_end(cases: &mut Cases) {
    let end = u64::from(CLOCK_END);
    for left in [0, 1, 5, 9] {
        for more in [left, left + 1] {
            let before = (3, 1, end - left);
            let more = more as u32;
            for log in [&[][..], &[2, 4], &[0, 1], &SHORT] {
                add(cases, before, more, log, P[0]);
            }
        }
    }
    add(cases, (3, 1, end), CLOCK_END, &[0], P[0]);
    add(cases, (3, 1, end + 1), 0, &[], P[0]);
}

/// The other examples of document 01 with full lengths, one number short, and one long.
fn examples(cases: &mut Cases) {
    for words in &P[1..SOUND] {
        let jobs = jobs(words, 0, 18);
        let full: Vec<u32> = jobs.iter().map(|job| job.c).collect();
        add(cases, NOTHING, 18, &full, words);
        add(cases, NOTHING, 18, &full[1..], words);
        let lengths = log(&mut cases.rng, &jobs);
        add(cases, NOTHING, 18, &lengths, words);
        let over = [&lengths[..], &[0]].concat();
        add(cases, NOTHING, 18, &over, words);
        add(cases, NOTHING, 19, &over, words);
    }
}

/// Rows of either pattern.
fn mixed_patterns(cases: &mut Cases) {
    for patterns in 0..8 {
        let words = mixed(patterns);
        for n in [0, 11] {
            let jobs = jobs(&words, n, 30);
            let lengths = log(&mut cases.rng, &jobs);
            add(cases, (n.into(), NOWHERE, 0), 30, &lengths, &words);
            let short = &lengths[..lengths.len() - 1];
            add(cases, (n.into(), NOWHERE, 0), 40, short, &words);
        }
    }
}

/// States that no run from fresh reaches: a release put off or brought forward, more
/// work or ticks left than there could be, another kind, place or pattern.
fn unreached(cases: &mut Cases) {
    let changed = [
        (0, WAIT, 0),
        (0, WAIT, 1),
        (0, WAIT, 3),
        (1, WAIT, 4),
        (0, PLACE, 0),
        (1, PLACE, 2),
        (1, WORK, 4),
        (1, LEFT, 1),
        (1, KIND, 0),
        (0, 6, 1),
        (1, 2, 9),
        (1, 1, 9),
    ];
    for (row, word, value) in changed {
        let before = (3, word_at(row, word), value);
        add(cases, before, 12, &[2, 4, 1, 1, 1, 1], P[0]);
        add(cases, before, 12, &[1, 2, 3], P[0]);
    }
}

/// As many jobs at once as there can be: the first row and the last out of range, and
/// one number too few.
fn all_rows(cases: &mut Cases) {
    let mut words = rows_of(ROWS_MAX);
    for (row, c) in words.chunks_exact_mut(ROW_WORDS).zip(1..) {
        row[1] = c;
    }
    let full: Vec<u32> = (1..=ROWS_MAX as u32).collect();
    add(cases, NOTHING, 64, &full, &words);
    add(cases, NOTHING, 65, &full[1..], &words);
    for place in [0, 30, 31] {
        let mut log = full.clone();
        log[place] += 1;
        add(cases, NOTHING, 64, &log, &words);
    }
    let rows: Vec<u32> = full.into_iter().rev().collect();
    add(cases, NOTHING, 64, &rows, &words);
}

/// The longest log: used up, its last number out of range or not used.
fn long_logs(cases: &mut Cases) {
    let mut log = [1; 512];
    add(cases, NOTHING, 600, &log, P[4]);
    log[511] = 2;
    add(cases, NOTHING, 600, &log, P[4]);
    add(cases, NOTHING, 511, &log, P[4]);
}

/// Drawn tables from drawn times, states as they are and with a word changed.
fn drawn(cases: &mut Cases) {
    for turn in 0..60 {
        let words = cases.few_rows(tiny_table);
        let (n, more) = (cases.rng.word(0, 60), cases.rng.word(0, 12));
        let state = state_at(&words, n);
        let jobs = releases(&state, more, 40);
        let log = any_log(&mut cases.rng, &jobs);
        add(cases, (n.into(), NOWHERE, 0), more, &log, &words);
        if turn % 2 == 0 {
            let [_, [at, value]] = changes(&mut cases.rng, &state, 1)[..] else {
                continue;
            };
            add(cases, (n.into(), at, value), more, &log, &words);
        }
    }
}
