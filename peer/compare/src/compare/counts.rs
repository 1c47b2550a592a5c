//! The counts of one row of a saved state: every answer and every lent word.

mod windows;

use peer::counts::{counts_words, COUNT_WORDS};
use peer::dispatch::{fresh_words, run_words, HEAD_WORDS, SAVED_ROW_WORDS, STATE_WORDS};
use peer::gen::{damaged_states, scrambled_state, state};
use peer::rng::Rng;
use peer::table::ROWS_MAX;

use super::Comparison;
use crate::course::{shown, Compared, Course, Difference};
use crate::draw::{every_bit, followed, row_counts, run_table, state_lengths, state_room_of};
use crate::ffi;
use crate::lent::Lent;

/// States that a run from fresh came to, and the most ticks of each run.
const RUN: u32 = 1_200;
const RUN_TICKS: u32 = 3_000;

/// States drawn from all the well-formed ones.
const DRAWN: u32 = 1_200;

/// States whose counts are laid into rooms of every length.
const ROOMED: u32 = 150;

/// States whose fields are damaged in turn, hundreds of ways each.
const DAMAGED: u32 = 60;

/// States with several words changed at once.
const SCRAMBLED: u32 = 40_000;

/// States offered with other numbers of rows.
const RENUMBERED: u32 = 20;

/// Rooms up to two words past the seven that are filled.
const ROOM: usize = COUNT_WORDS + 2;

pub const ALL: &[Comparison] = &[
    Comparison::drawn("counts_runs", &[0, 13], runs),
    Comparison::drawn("counts_drawn", &[0, 13], drawn),
    Comparison::drawn("counts_rooms", &[0, 13, 14], rooms),
    Comparison::drawn("counts_damaged", &[0, 13, 14], damaged),
    Comparison::drawn("counts_scrambled", &[0, 13, 14], scrambled),
    Comparison::drawn("counts_bits", &[0, 14], bits),
    Comparison::drawn("counts_lengths", &[0, 14], lengths),
    Comparison::drawn("counts_row_numbers", &[0, 14], row_numbers),
    Comparison::fixed("counts_windows", &[0], windows::all),
    Comparison::drawn("counts_windows_drawn", &[0], windows::drawn),
];

/// Every row that a state can have and some past the last; rows whose low bits
/// alone, or whose words' place in 32 bits, would be in range; the last number.
pub(super) fn rows() -> impl Iterator<Item = u32> {
    let far = [
        255,
        256,
        65_536,
        65_537,
        1 << 27,
        1 << 31,
        (1 << 31) + 1,
        u32::MAX / SAVED_ROW_WORDS as u32,
        u32::MAX / SAVED_ROW_WORDS as u32 + 1,
        u32::MAX - 31,
        u32::MAX - 1,
        u32::MAX,
    ];
    (0..=40).chain(far)
}

/// A row, mostly one that the state has.
fn row(rng: &mut Rng) -> u32 {
    match rng.below(8) {
        0 => rng.word(0, 40),
        1 => rng.choose(&[31, 32, 33, 256, u32::MAX]).unwrap_or(0),
        2 => 0,
        _ => rng.word(0, 7),
    }
}

/// A room, mostly of the seven words or more.
fn room(rng: &mut Rng) -> Vec<u64> {
    let length = match rng.below(16) {
        0 => rng.index(COUNT_WORDS),
        1 => COUNT_WORDS - 1,
        2 => STATE_WORDS,
        3 | 4 => COUNT_WORDS + rng.index(30),
        _ => COUNT_WORDS,
    };
    state_room_of(rng, length)
}

/// Both answers on a row and every word that was lent for them.
pub(super) fn same_counts(course: &mut Course, words: &[u64], row: u32, room: &[u64]) -> Compared {
    let mut lent_state = Lent::new(&mut course.rng, words);
    let mut lent_room = Lent::new(&mut course.rng, room);
    let first = ffi::counts_lent(&mut lent_state, row, &mut lent_room);
    let mut filled = room.to_vec();
    let peer = counts_words(words, row, &mut filled);
    let same = first == peer && lent_state.holds(words) && lent_room.holds(&filled);
    course.settle(peer, same, || {
        format!(
            "counts of row {row} of {} words {words:?}\nroom before {room:?}\n\
             first {} room {:?}\npeer  {} room {filled:?}\naltered beside the room {:?}\n\
             state altered {}, beside it {:?}",
            words.len(),
            shown(first),
            lent_room.words(),
            shown(peer),
            lent_room.altered_beside(),
            lent_state.words() != words,
            lent_state.altered_beside(),
        )
    })
}

/// Every row, each into a drawn room.
fn same_rows(course: &mut Course, words: &[u64]) -> Compared {
    for row in rows() {
        let room = room(&mut course.rng);
        same_counts(course, words, row, &room)?;
    }
    Ok(())
}

/// A drawn row into a drawn room.
fn same_row(course: &mut Course, words: &[u64]) -> Compared {
    let (row, room) = (row(&mut course.rng), room(&mut course.rng));
    same_counts(course, words, row, &room)
}

/// A drawn table after a drawn run.
fn ran(rng: &mut Rng) -> Vec<u64> {
    let (table, ticks) = (run_table(rng), rng.word(0, RUN_TICKS));
    let mut words = vec![0; STATE_WORDS];
    fresh_words(&table, &mut words);
    run_words(&mut words, ticks);
    words
}

/// Tables admitted and not, after runs; each of the seven counts must have been
/// met above 0.
fn runs(course: &mut Course) -> Compared {
    let mut reached = [0; COUNT_WORDS];
    for _ in 0..RUN {
        let words = ran(&mut course.rng);
        same_rows(course, &words)?;
        for row in 0..ROWS_MAX as u32 {
            let mut counts = [0; COUNT_WORDS];
            counts_words(&words, row, &mut counts);
            for (sum, count) in reached.iter_mut().zip(counts) {
                *sum += count;
            }
        }
    }
    if reached.contains(&0) {
        let text = format!("a count was never reached: {reached:?}");
        return Err(Difference(text));
    }
    Ok(())
}

/// States that most often no run from fresh reaches.
fn drawn(course: &mut Course) -> Compared {
    for _ in 0..DRAWN {
        let words = state(&mut course.rng);
        same_rows(course, &words)?;
    }
    Ok(())
}

/// Every length of room to past the seven words, for rows there are and rows
/// there are not: 13 comes after 14.
fn rooms(course: &mut Course) -> Compared {
    for round in 0..ROOMED {
        let mut words = ran(&mut course.rng);
        if round % 3 == 0 {
            // The released count of row 0, which no longer adds up.
            words[HEAD_WORDS + 13] += 1;
        }
        let last = words[0] as u32;
        for row in [0, last - 1, last, 31, 32, 40, u32::MAX] {
            for length in 0..=ROOM {
                let room = state_room_of(&mut course.rng, length);
                same_counts(course, &words, row, &room)?;
            }
        }
    }
    no_room(course)
}

/// Slices without any memory behind them, as a Rust caller may lend.
fn no_room(course: &mut Course) -> Compared {
    let good = ran(&mut course.rng);
    for words in [&[] as &[u64], &good] {
        let first = ffi::counts(words, 0, &mut []);
        let peer = counts_words(words, 0, &mut []);
        course.settle(peer, first == peer, || {
            let (length, first, peer) = (words.len(), shown(first), shown(peer));
            format!("counts of {length} words, no room: {first} {peer}")
        })?;
    }
    Ok(())
}

/// Each field damaged in turn, each bound at its end and one past it.
fn damaged(course: &mut Course) -> Compared {
    for _ in 0..DAMAGED {
        let good = state(&mut course.rng);
        for one in damaged_states(&mut course.rng, &good) {
            same_row(course, &one.words)?;
        }
    }
    Ok(())
}

/// Counts whose sum overflows, jobs made or taken away, ids that stand twice.
fn scrambled(course: &mut Course) -> Compared {
    for _ in 0..SCRAMBLED {
        let words = scrambled_state(&mut course.rng);
        same_row(course, &words)?;
    }
    Ok(())
}

/// Each bit of all 643 words turned over.
fn bits(course: &mut Course) -> Compared {
    let good = ran(&mut course.rng);
    for words in every_bit(&good) {
        same_row(course, &words)?;
    }
    Ok(())
}

/// A state cut short, and with zeros or with rubbish after it.
fn lengths(course: &mut Course) -> Compared {
    for length in state_lengths() {
        let good = ran(&mut course.rng);
        for whole in followed(&mut course.rng, &good, length) {
            let (row, room) = (row(&mut course.rng), [7; COUNT_WORDS]);
            same_counts(course, &whole[..length], row, &room)?;
        }
    }
    Ok(())
}

/// The number of rows changed: to fewer rows than stand there, to more, and to
/// numbers whose low bits alone would do.
fn row_numbers(course: &mut Course) -> Compared {
    for _ in 0..RENUMBERED {
        let mut words = ran(&mut course.rng);
        for rows in row_counts() {
            words[0] = rows;
            same_row(course, &words)?;
        }
    }
    Ok(())
}
