//! "A task table": well formed or not, through the check, the verdict and the rooms.

use peer::table::{check, ROWS_MAX, ROW_WORDS};

use super::rooms::same_rooms;
use super::verdict::same_verdict;
use super::Comparison;
use crate::course::{shown, Compared, Course};
use crate::draw::{any_table, faults_in, room, sound, EDGES, FAULTS};
use crate::ffi;
use crate::lent::Lent;

/// The check gives these, the verdict 11 and 13 besides, the rooms 13.
pub const WORDS_REFUSED: [u64; 12] = [0, 1, 2, 3, 4, 5, 6, 7, 8, 9, 10, 16];

/// Words of the right number, and a row at fault.
pub const ROWS_REFUSED: [u64; 9] = [0, 4, 5, 6, 7, 8, 9, 10, 16];

pub const ALL: &[Comparison] = &[
    Comparison::drawn("table_lengths", &[0, 1, 2, 3, 4], lengths),
    Comparison::drawn("table_fields", &ROWS_REFUSED, fields),
    Comparison::drawn("table_fault_sets", &ROWS_REFUSED, fault_sets),
    Comparison::drawn("table_drawn", &WORDS_REFUSED, drawn),
];

/// Tables drawn freely.
const DRAWN: u32 = 1_000_000;

/// Periods short enough that the second program's walk costs little.
const T_SHORT: u32 = 400;

/// The check's answers, and the words lent for it, afterwards as before.
fn same_check(course: &mut Course, words: &[u32]) -> Compared {
    let mut lent = Lent::new(&mut course.rng, words);
    let (first, peer) = (ffi::check_lent(&mut lent), check(words));
    let same = first == peer && lent.holds(words);
    course.settle(peer, same, || {
        let (first, peer) = (shown(first), shown(peer));
        let (after, beside) = (lent.words(), lent.altered_beside());
        format!(
            "check of {words:?}\nfirst {first}\npeer  {peer}\n\
             table after {after:?}\naltered beside the table {beside:?}"
        )
    })
}

/// The check, and the verdict and the rooms into a drawn room.
pub fn same_table(course: &mut Course, words: &[u32]) -> Compared {
    same_check(course, words)?;
    let room = room(&mut course.rng, words.len() / ROW_WORDS);
    same_verdict(course, words, &room)?;
    same_rooms(course, words, &room)
}

/// Every length to well past 224 words, and lengths whose row count has low
/// bits that would be in range, each with several contents.
fn lengths(course: &mut Course) -> Compared {
    let long = [1_785, 1_792, 1_799, 458_752, 458_759, 458_760];
    for length in (0..=300).chain(long) {
        let mut well = sound(&mut course.rng, length / ROW_WORDS + 1, T_SHORT);
        well.truncate(length);
        same_table(course, &well)?;
        same_table(course, &vec![0; length])?;
        same_table(course, &vec![u32::MAX; length])?;
        let drawn: Vec<u32> = (0..length).map(|_| course.rng.word(0, 66)).collect();
        same_table(course, &drawn)?;
    }
    empty_slices(course)
}

/// Slices without any memory behind them, as a Rust caller may lend.
fn empty_slices(course: &mut Course) -> Compared {
    let one_row = [1, 1, 1, 1, 1, 1, 1];
    for words in [&[] as &[u32], &one_row] {
        let (first, peer) = (ffi::check(words), check(words));
        course.settle(peer, first == peer, || {
            format!("check of {words:?}: {} {}", shown(first), shown(peer))
        })?;
        let verdicts = [ffi::verdict, peer::verdict::verdict];
        let rooms = [ffi::rooms, peer::rooms::rooms];
        for asked in [verdicts, rooms] {
            let [first, peer] = asked.map(|one| one(words, &mut []));
            course.settle(peer, first == peer, || {
                format!("no room, {words:?}: {} {}", shown(first), shown(peer))
            })?;
        }
    }
    Ok(())
}

/// Each word of a table at every edge, at the neighbours of the row's own words,
/// and at the ids of the other rows.
pub fn each_word_moved(well: &[u32], mut same: impl FnMut(&[u32]) -> Compared) -> Compared {
    for at in 0..well.len() {
        let row = at / ROW_WORDS * ROW_WORDS;
        let own = &well[row..row + ROW_WORDS];
        let near = own
            .iter()
            .flat_map(|&word| [word.wrapping_sub(1), word, word + 1]);
        let ids = well.iter().step_by(ROW_WORDS).copied();
        for value in near.chain(ids).chain(EDGES) {
            let mut words = well.to_vec();
            words[at] = value;
            same(&words)?;
        }
    }
    Ok(())
}

/// Each word of tables of several sizes, moved.
fn fields(course: &mut Course) -> Compared {
    for rows in [1, 2, 3, 7, ROWS_MAX - 1, ROWS_MAX] {
        let well = sound(&mut course.rng, rows, T_SHORT);
        each_word_moved(&well, |words| same_table(course, words))?;
    }
    Ok(())
}

/// Every set of the faults 4 to 10 and 16 in one row with every set in another, the
/// words below their ranges, above them, and drawn.
fn fault_sets(course: &mut Course) -> Compared {
    let sets = 1 << FAULTS;
    for (upper, lower) in [(0, 1), (0, 2), (1, 2)] {
        let well = sound(&mut course.rng, 3, T_SHORT);
        for (in_upper, in_lower) in (0..sets).flat_map(|a| (0..sets).map(move |b| (a, b))) {
            for over in [0, sets - 1, course.rng.word(0, sets - 1)] {
                let mut words = well.clone();
                for (row, faults) in [(upper, in_upper), (lower, in_lower)] {
                    let earlier = well[row / 2 * ROW_WORDS];
                    let row = &mut words[row * ROW_WORDS..(row + 1) * ROW_WORDS];
                    faults_in(row, faults, over, earlier);
                }
                same_table(course, &words)?;
            }
        }
    }
    Ok(())
}

/// Tables with faults, sound ones and rubbish.
fn drawn(course: &mut Course) -> Compared {
    for _ in 0..DRAWN {
        let words = any_table(&mut course.rng, T_SHORT);
        same_table(course, &words)?;
    }
    Ok(())
}
