//! Ends of ranges: D of 1 and of 65,535, C of 65,535, a job in each tick, one row and
//! 32, and rows above that leave nothing.

use peer::pattern::{EVEN, RED};
use peer::rng::Rng;
use peer::table::{ROWS_MAX, ROW_WORDS, WORD_MAX};

use super::{same_drawn, same_rooms};
use crate::course::{Compared, Course, Difference};
use crate::draw::{room_of, sound, Patterns};
use crate::ffi;

/// D, and T where it is not D: the ends and what is near them.
const TIMES: [u32; 12] = [
    1, 2, 3, 63, 64, 65, 32_767, 32_768, 32_769, 65_533, 65_534, WORD_MAX,
];

/// C at its ends and near half of the range.
const COSTS: [u32; 6] = [1, 2, 32_767, 32_768, WORD_MAX - 1, WORD_MAX];

/// m and k.
const PAIRS: [(u32, u32); 8] = [
    (1, 1),
    (1, 2),
    (2, 4),
    (3, 5),
    (1, 64),
    (32, 64),
    (63, 64),
    (64, 64),
];

/// Tables drawn for the overload, and of many rows.
const OVERLOADS: u32 = 6_000;
const MANY: u32 = 120;

/// Tables whose room is far below D.
const FAR: u32 = 1_000;

/// One row, whose room is its D whatever else it is.
pub fn one_row(course: &mut Course) -> Compared {
    for (&t, &d) in TIMES.iter().flat_map(|t| TIMES.iter().map(move |d| (t, d))) {
        for c in COSTS {
            let (m, k) = course.rng.choose(&PAIRS).unwrap_or((1, 1));
            let words = [course.rng.word(1, WORD_MAX), c, t, d.min(t), m, k, c % 2];
            same_drawn(course, &words)?;
            let mut room = [0];
            ffi::rooms(&words, &mut room);
            if room != [d.min(t)] {
                return Err(Difference(format!("one row {words:?}: room {room:?}")));
            }
        }
    }
    Ok(())
}

/// A row above with each T, C and pair, of either pattern, and a row below with each D.
pub fn two_rows(course: &mut Course) -> Compared {
    let above = TIMES.iter().flat_map(|t| COSTS.map(|c| (*t, c)));
    for ((t, c), (m, k)) in above.flat_map(|above| PAIRS.map(|pair| (above, pair))) {
        for p in [EVEN, RED] {
            let d = course.rng.choose(&TIMES).unwrap_or(1);
            let own = course.rng.choose(&COSTS).unwrap_or(1);
            for d in [d, WORD_MAX] {
                let t_below = course.rng.word(d, WORD_MAX);
                let above = [1, c, t, 1 + (t - 1) / 2, m, k, p];
                let below = [2, own, t_below, d, m, k, 1 - p];
                same_drawn(course, &[above, below].concat())?;
            }
        }
    }
    Ok(())
}

/// 32 rows, all with D of 65,535 or all with D of 1, few of them with a short T.
pub fn many_rows(course: &mut Course) -> Compared {
    for round in 0..MANY {
        let mut words = sound(&mut course.rng, ROWS_MAX, WORD_MAX);
        for row in words.chunks_exact_mut(ROW_WORDS) {
            many(&mut course.rng, round, row);
        }
        Patterns::Drawn.lay(&mut course.rng, &mut words);
        same_drawn(course, &words)?;
    }
    Ok(())
}

/// A row of such a table, by the round.
fn many(rng: &mut Rng, round: u32, row: &mut [u32]) {
    let (t, d) = match round % 4 {
        0 => (WORD_MAX, 1),
        1 if rng.once_in(16) => (1, 1),
        2 if rng.once_in(8) => {
            let t = rng.word(1, 40);
            (t, rng.word(1, t))
        }
        _ => (WORD_MAX, WORD_MAX),
    };
    let most = if rng.once_in(8) { WORD_MAX } else { 2_500 };
    [row[1], row[2], row[3]] = [rng.word(1, most), t, d];
}

/// Rows above that leave nothing, one tick, or a few: rooms of 0 and of little more.
pub fn overload(course: &mut Course) -> Compared {
    let mut seen = [0u32; 3];
    for _ in 0..OVERLOADS {
        let rng = &mut course.rng;
        let (t, k) = (rng.word(1, 40), rng.word(1, 64));
        // Of each T ticks so many are free where every job is mandatory.
        let free = rng.word(0, 1 + t / 20).min(t - 1);
        let above = [1, t - free, t, rng.word(1, t), k, k, rng.word(EVEN, RED)];
        let also = [2, rng.word(1, 3), rng.word(1, 400), 1, 1, 64, RED];
        let longest = if rng.once_in(3) { 2 * t } else { 60 * t };
        let d = rng.word(1, longest);
        let below = [3, rng.word(1, 5), d, d, 1, 1, EVEN];
        let mut words = above.to_vec();
        if rng.once_in(2) {
            words.extend(also);
        }
        words.extend(below);
        same_drawn(course, &words)?;
        let mut rooms = [0; 3];
        let rows = ffi::rooms(&words, &mut rooms).value as usize;
        seen[rooms[rows - 1].min(2) as usize] += 1;
    }
    if seen.iter().any(|&count| count < 50) {
        return Err(Difference(format!("rooms of 0, 1, and more: {seen:?}")));
    }
    Ok(())
}

/// A row with a job in every few ticks beside a long one, of whose second job there is
/// more before D than ticks: the room is had where that job is released, thousands of
/// stretches before D.
pub fn far_below_d(course: &mut Course) -> Compared {
    let mut far = 0;
    for _ in 0..FAR {
        let rng = &mut course.rng;
        let (t, often) = (rng.word(4_000, 50_000), rng.word(1, 5));
        let c = rng.word(t / 2, t - t / 10);
        let d = rng.word(t + 1, WORD_MAX.min(t + c));
        let (k, p) = (rng.word(1, 64), rng.word(EVEN, RED));
        let words = [
            [1, 1, often, often, 1, 64, p],
            [2, c, t, t, k, k, 1 - p],
            [3, rng.word(1, t - c), rng.word(d, WORD_MAX), d, 1, 1, p],
        ];
        let words = words.concat();
        same_drawn(course, &words)?;
        let mut rooms = [0; 3];
        ffi::rooms(&words, &mut rooms);
        let at_d = i64::from(d) - i64::from(2 * c) - i64::from(d.div_ceil(64 * often));
        let stretches = (d - t) / often;
        far += u32::from(stretches > 2_000 && i64::from(rooms[2]) > at_d);
    }
    match far > FAR / 10 {
        true => Ok(()),
        false => Err(Difference(format!("{far} rooms are far below D"))),
    }
}

/// D on either side of every release of the rows above, up to a bound: where a stretch
/// ends, and a tick before and after.
pub fn ends_of_d(course: &mut Course) -> Compared {
    for _ in 0..60 {
        let rows = 1 + course.rng.index(3);
        let mut words = sound(&mut course.rng, rows, 24);
        let t = words.chunks_exact(ROW_WORDS).map(|row| row[2]);
        let releases = t.flat_map(|t| (0..=96 / t).map(move |job| job * t));
        let ends: Vec<u32> = releases
            .flat_map(|at| [at.saturating_sub(1), at, at + 1])
            .filter(|&d| d > 0)
            .collect();
        words.extend([0, 1, WORD_MAX, 1, 1, 1, EVEN]);
        let last = rows * ROW_WORDS;
        words[last] = (1..).find(|id| !ids(&words).contains(id)).unwrap_or(1);
        for d in ends {
            words[last + 3] = d;
            let room = room_of(&mut course.rng, rows + 1);
            same_rooms(course, &words, &room)?;
        }
    }
    Ok(())
}

fn ids(words: &[u32]) -> Vec<u32> {
    words.iter().step_by(ROW_WORDS).copied().collect()
}
