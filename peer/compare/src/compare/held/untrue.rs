//! States damaged in the number of met marks alone, in the window alone, and in
//! both, in windows at both ends.

use peer::answer::{refusal, Answer};
use peer::dispatch::{HELD, WINDOW};
use peer::pattern::K_MAX;
use peer::rng::Rng;

use super::{same_whole, Place};
use crate::course::{Compared, Course};

/// Rounds, each with states of its own.
const NUMBERS: u32 = 10;
const WINDOWS: u32 = 8;

/// The first row, one in the middle and the last, of few rows and of all.
const PLACES: [Place; 6] = [
    Place::new(1, 0),
    Place::new(2, 0),
    Place::new(2, 1),
    Place::new(32, 0),
    Place::new(32, 15),
    Place::new(32, 31),
];

/// k at its ends, and how many are drawn beside them.
const KS: [u32; 6] = [1, 2, 3, 32, 63, 64];
const KS_DRAWN: usize = 4;

const ACCEPTED: Answer = Answer::accepted(0);
const REFUSED: Answer = Answer::refused(refusal::STATE);

/// k at its ends and others, for each of the places.
fn places(rng: &mut Rng) -> Vec<(Place, u32)> {
    let mut all = Vec::new();
    for place in PLACES {
        let drawn = (0..KS_DRAWN).map(|_| rng.word(1, K_MAX));
        all.extend(KS.into_iter().chain(drawn).map(|k| (place, k)));
    }
    all
}

/// Windows of k marks: all met, all missed, the newest or the oldest alone met,
/// the newest or the oldest alone missed, and any.
fn windows_of(rng: &mut Rng, k: u32) -> [u64; 7] {
    let (all, oldest) = (u64::MAX >> (K_MAX - k), 1 << (k - 1));
    let any = rng.bits() & all;
    [all, 0, 1, oldest, all ^ 1, all ^ oldest, any]
}

/// Numbers of met marks: one more, one fewer, at the ends, the same in 32 bits,
/// any.
fn numbers_near(rng: &mut Rng, held: u64, k: u32) -> [u64; 9] {
    let k = u64::from(k);
    [
        held + 1,
        held.wrapping_sub(1),
        0,
        k,
        k + 1,
        held + (1 << 32),
        1 << 63,
        u64::MAX,
        rng.bits() >> rng.below(64),
    ]
}

/// The number alone: "a caller's state in which it isn't true is not well formed".
pub fn numbers(course: &mut Course) -> Compared {
    for _ in 0..NUMBERS {
        for (place, k) in places(&mut course.rng) {
            let mut words = place.state(&mut course.rng, k);
            for window in windows_of(&mut course.rng, k) {
                place.lay(&mut words, window);
                number_alone(course, &words, place, k)?;
            }
        }
    }
    Ok(())
}

fn number_alone(course: &mut Course, good: &[u64], place: Place, k: u32) -> Compared {
    same_whole(course, good, place.row, ACCEPTED)?;
    let held = good[place.at(HELD)];
    let mut words = good.to_vec();
    for value in numbers_near(&mut course.rng, held, k) {
        if value != held {
            words[place.at(HELD)] = value;
            same_whole(course, &words, place.row, REFUSED)?;
        }
    }
    Ok(())
}

/// The window alone, and the window with its number.
pub fn windows(course: &mut Course) -> Compared {
    for _ in 0..WINDOWS {
        for (place, k) in places(&mut course.rng) {
            let mut words = place.state(&mut course.rng, k);
            for window in windows_of(&mut course.rng, k) {
                place.lay(&mut words, window);
                for mark in [0, k - 1, course.rng.word(0, k - 1)] {
                    turned(course, &words, place, mark)?;
                }
                moved(course, &words, place, k)?;
                past(course, &words, place, k)?;
            }
        }
    }
    Ok(())
}

/// One mark turned over: untrue with the number as it was, true with the one mark
/// more or fewer, and untrue with as many the other way.
fn turned(course: &mut Course, good: &[u64], place: Place, mark: u32) -> Compared {
    let mut words = good.to_vec();
    words[place.at(WINDOW)] ^= 1 << mark;
    same_whole(course, &words, place.row, REFUSED)?;
    let before = good[place.at(HELD)];
    place.lay(&mut words, good[place.at(WINDOW)] ^ 1 << mark);
    same_whole(course, &words, place.row, ACCEPTED)?;
    let now = words[place.at(HELD)];
    words[place.at(HELD)] = before.wrapping_add(before).wrapping_sub(now);
    same_whole(course, &words, place.row, REFUSED)
}

/// A met mark and a missed one turned over, where there are both: the number stays
/// true.
fn moved(course: &mut Course, good: &[u64], place: Place, k: u32) -> Compared {
    let window = good[place.at(WINDOW)];
    let from = course.rng.word(0, k - 1);
    let other = |&mark: &u32| (window >> mark ^ window >> from) & 1 == 1;
    let Some(to) = (0..k).find(other) else {
        return Ok(());
    };
    let mut words = good.to_vec();
    words[place.at(WINDOW)] ^= 1 << from | 1 << to;
    same_whole(course, &words, place.row, ACCEPTED)
}

/// A mark past the k of the window, with the number that counts it and without.
fn past(course: &mut Course, good: &[u64], place: Place, k: u32) -> Compared {
    if k == K_MAX {
        return Ok(());
    }
    let mut words = good.to_vec();
    words[place.at(WINDOW)] |= 1 << course.rng.word(k, K_MAX - 1);
    same_whole(course, &words, place.row, REFUSED)?;
    words[place.at(HELD)] += 1;
    same_whole(course, &words, place.row, REFUSED)
}
