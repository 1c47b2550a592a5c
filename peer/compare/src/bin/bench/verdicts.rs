//! Verdicts and rooms, against the second program's searches: for a response time alone
//! as before document 02, 7/14, and with the room of each row, which the verdict uses.

use std::hint::black_box;

use compare::ffi;
use peer::answer::Answer;
use peer::rng::Rng;
use peer::rooms::{rooms, rooms_by_leaps, rooms_by_steps, rooms_by_stretches};
use peer::rooms::{verdict_by_room_leaps, verdict_by_rooms};
use peer::rooms::{verdict_by_rooms_walking, verdict_by_steps};
use peer::table::ROWS_MAX;
use peer::verdict::{verdict, verdict_leaping};

use super::tables::{every_tick, long_periods, tables};
use super::timing::line;

/// What fills a room with a figure for each row of a table.
type Figures = fn(&[u32], &mut [u32]) -> Answer;

/// The second program's verdicts: without rooms by leaps and by a walk, then with rooms
/// by stretches, by stretches without their divisions, by leaps, and by a walk.
const VERDICTS: [(&str, Figures); 6] = [
    ("leaping", verdict_leaping),
    ("walking", verdict),
    ("with_rooms", verdict_by_rooms),
    ("with_rooms_steps", verdict_by_steps),
    ("with_rooms_leaps", verdict_by_room_leaps),
    ("with_rooms_walking", verdict_by_rooms_walking),
];

/// Its rooms in the same ways.
const ROOMS: [(&str, Figures); 4] = [
    ("stretches", rooms_by_stretches),
    ("steps", rooms_by_steps),
    ("leaps", rooms_by_leaps),
    ("walking", rooms),
];

/// The answer and the room of one call.
fn answered(ask: Figures, words: &[u32]) -> (Answer, [u32; ROWS_MAX]) {
    let mut room = [0; ROWS_MAX];
    (ask(words, &mut room), room)
}

/// The verdict and the rooms of tables of so many rows.
pub fn verdicts(rng: &mut Rng, rows: usize, d_max: u32) -> bool {
    let tables = tables(rng, rows, d_max);
    timed_verdicts(&format!("{rows}_rows_d_{d_max}"), &tables)
}

/// Tables with a handful of stretches up to 65,535, and tables with as many as ticks. A
/// copy draws for them, so that the tables of the other lines stay as they are.
pub fn far_apart(rng: &Rng) -> bool {
    [4, 32].into_iter().all(|rows| {
        let (few, many) = (long_periods(&mut rng.clone(), rows), every_tick(rows));
        timed_verdicts(&format!("{rows}_rows_long_periods"), &few)
            && timed_verdicts(&format!("{rows}_rows_every_tick"), &many)
    })
}

pub fn timed_verdicts(name: &str, tables: &[Vec<u32>]) -> bool {
    timed(&format!("verdict_{name}"), tables, ffi::verdict, &VERDICTS)
        && timed(&format!("rooms_{name}"), tables, ffi::rooms, &ROOMS)
}

/// The first program's answers against each of the second's, if they are the same.
fn timed(name: &str, tables: &[Vec<u32>], ours: Figures, peers: &[(&str, Figures)]) -> bool {
    for words in tables {
        let first = answered(ours, words);
        for (how, peer) in peers {
            let peer = answered(*peer, words);
            if first != peer || !first.0.is_accepted() {
                println!("bench {name} {words:?} ours {first:?} peer {how} {peer:?}");
                return false;
            }
        }
    }
    let ask = |one: Figures| {
        for words in black_box(tables) {
            black_box(answered(one, words));
        }
    };
    for (how, peer) in peers {
        let name = format!("{name}_{how}");
        let (mut ours, mut peer) = (|| ask(ours), || ask(*peer));
        line(&name, tables.len(), &mut ours, &mut peer);
    }
    true
}
