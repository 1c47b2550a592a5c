//! A table with one word changed: which rooms go up, which go down, and which stay, on
//! the first program's rooms alone.

use peer::answer::Answer;
use peer::dispatch::P;
use peer::pattern::{EVEN, K_MAX};
use peer::rng::Rng;
use peer::table::{ROW_WORDS, WORD_MAX};

use super::laws::{rooms_of, well};
use crate::course::{Compared, Course, Difference};

/// Tables, each with several words changed in turn.
const TABLES: u32 = 12_000;
const CHANGES: u32 = 6;

/// How the rooms of the rows below the changed one may move.
#[derive(Clone, Copy, Debug)]
enum Below {
    Less,
    More,
    Same,
}

impl Below {
    fn is_so(self, now: &[u32], was: &[u32]) -> bool {
        let mut pairs = now.iter().zip(was);
        match self {
            Below::Less => pairs.all(|(now, was)| now <= was),
            Below::More => pairs.all(|(now, was)| now >= was),
            Below::Same => now == was,
        }
    }
}

/// A word of a row made another, and what comes of it. More work above leaves less room
/// below: more C, more of k mandatory, a shorter T, deeply-red for even.
fn change(rng: &mut Rng, row: &mut [u32]) -> Below {
    let [_, c, t, d, m, k, _] = *row else {
        return Below::Same;
    };
    let (word, made, below) = match rng.below(8) {
        0 | 1 => (1, rng.word(c, WORD_MAX.min(c + 40)), Below::Less),
        2 => (1, rng.word(1, c), Below::More),
        3 => (2, rng.word(d, t), Below::Less),
        4 => (4, rng.word(m, k), Below::Less),
        5 => (5, rng.word(k, K_MAX), Below::More),
        6 => (3, rng.word(d, t), Below::Same),
        _ => (P, EVEN, Below::More),
    };
    row[word] = made;
    below
}

/// How often rooms below fell, how often they grew, and how often a row's own did.
#[derive(Debug, Default)]
struct Seen {
    less: u32,
    more: u32,
    own: u32,
}

/// The rooms above the changed row stay; its own stays too, save that it may grow with
/// its D.
pub fn moved(course: &mut Course) -> Compared {
    let mut seen = Seen::default();
    for _ in 0..TABLES {
        let words = well(&mut course.rng);
        let rooms = rooms_of(&words);
        for _ in 0..CHANGES {
            same_changed(course, &words, &rooms, &mut seen)?;
        }
    }
    match [seen.less, seen.more, seen.own].iter().all(|&n| n > 500) {
        true => Ok(()),
        false => Err(Difference(format!("{seen:?}"))),
    }
}

fn same_changed(course: &mut Course, words: &[u32], rooms: &[u32], seen: &mut Seen) -> Compared {
    let row = course.rng.index(rooms.len());
    let at = row * ROW_WORDS;
    let mut changed = words.to_vec();
    let below = change(&mut course.rng, &mut changed[at..at + ROW_WORDS]);
    let after = rooms_of(&changed);
    let (now, was) = (&after[row + 1..], &rooms[row + 1..]);
    match below {
        Below::Less => seen.less += u32::from(now != was),
        _ => seen.more += u32::from(now != was),
    }
    seen.own += u32::from(after[row] != rooms[row]);
    let grew = after[row] > rooms[row] && changed[at + 3] > words[at + 3];
    let own = after[row] == rooms[row] || grew;
    let same = below.is_so(now, was) && own && after[..row] == rooms[..row];
    course.settle(Answer::accepted(0), same, || {
        format!("{words:?}\nrooms {rooms:?}\n{changed:?}\nrooms {after:?}, due {below:?}")
    })
}
