//! "One tick": fresh states, which states are well formed, ticks and runs, each
//! state compared whole.

mod fresh;
mod runs;
mod states;
mod ticks;

pub(super) use fresh::{begun, same_fresh};

use peer::answer::Answer;
use peer::dispatch::{run_words, tick_words, well_formed_words};
use peer::dispatch::{HEAD_WORDS, SAVED_ROW_WORDS};
use peer::rng::Rng;

use super::held::kept_true;
use super::Comparison;
use crate::course::{shown, Compared, Course, Difference};
use crate::ffi;
use crate::lent::Lent;

pub const ALL: &[Comparison] = &[
    Comparison::drawn(
        "dispatch_fresh_lengths",
        &[0, 1, 2, 3, 4, 13],
        fresh::lengths,
    ),
    Comparison::drawn("dispatch_fresh_rooms", &[0, 4, 13], fresh::rooms),
    Comparison::drawn(
        "dispatch_fresh_drawn",
        &[0, 1, 2, 3, 4, 5, 6, 7, 8, 9, 10, 13, 16],
        fresh::drawn,
    ),
    Comparison::drawn("dispatch_states_lengths", &[0, 14], states::lengths),
    Comparison::drawn("dispatch_states_rows", &[0, 14], states::rows),
    Comparison::drawn("dispatch_states_fields", &[0, 14, 15], states::fields),
    Comparison::drawn("dispatch_states_bits", &[0, 14, 15], states::bits),
    Comparison::drawn("dispatch_states_scrambled", &[0, 14, 15], states::scrambled),
    Comparison::drawn("dispatch_ticks_fresh", &[0], ticks::from_fresh),
    Comparison::drawn("dispatch_ticks_drawn", &[0, 15], ticks::drawn),
    Comparison::drawn("dispatch_runs_drawn", &[0, 15], runs::drawn),
    Comparison::drawn("dispatch_runs_clock_end", &[0, 14, 15], runs::clock_end),
    Comparison::drawn("dispatch_runs_pieces", &[0], runs::pieces),
    Comparison::drawn("dispatch_runs_long", &[0], runs::long),
];

/// What can be asked of a saved state.
#[derive(Clone, Copy, Debug)]
pub(super) enum Call {
    Well,
    Tick,
    Run(u32),
}

impl Call {
    fn first(self, state: &mut Lent<u64>) -> Answer {
        match self {
            Call::Well => ffi::well_lent(state),
            Call::Tick => ffi::tick_lent(state),
            Call::Run(n) => ffi::run_lent(state, n),
        }
    }

    fn peer(self, state: &mut [u64]) -> Answer {
        match self {
            Call::Well => well_formed_words(state),
            Call::Tick => tick_words(state),
            Call::Run(n) => run_words(state, n),
        }
    }
}

/// The words of one state, lent to the first program and kept for the second.
pub(super) struct Both {
    pub(super) first: Lent<u64>,
    pub(super) peer: Vec<u64>,
}

impl Both {
    pub(super) fn new(rng: &mut Rng, words: &[u64]) -> Both {
        Both {
            first: Lent::new(rng, words),
            peer: words.to_vec(),
        }
    }

    /// Whether every word is the same, and nothing beside them was altered.
    pub(super) fn alike(&self) -> bool {
        self.first.holds(&self.peer)
    }

    /// One call on each side: the answers, and the states handed back.
    pub(super) fn call(&mut self, course: &mut Course, call: Call) -> Compared {
        let before = self.peer.clone();
        let first = call.first(&mut self.first);
        let peer = call.peer(&mut self.peer);
        let same = first == peer && self.alike();
        course.settle(peer, same, || {
            let (first, peer, apart) = (shown(first), shown(peer), self.apart());
            let before = state_shown(&before);
            format!("{call:?} on {before}\nfirst {first}\npeer  {peer}\n{apart}")
        })
    }

    /// One tick on each side, after which the first program's numbers of met marks
    /// are those of its windows.
    pub(super) fn tick(&mut self, course: &mut Course) -> Compared {
        self.call(course, Call::Tick)?;
        kept_true(self.first.words()).map_err(Difference)
    }

    /// The words that are not the same, and those altered beside them.
    pub(super) fn apart(&self) -> String {
        let words = self.first.words().iter().zip(&self.peer).enumerate();
        let apart = words.filter(|(_, (first, peer))| first != peer);
        let apart = apart.map(|(at, (first, peer))| {
            let name = word_name(at);
            format!("word {at}, {name}: first {first} peer {peer}\n")
        });
        let beside = self.first.altered_beside();
        format!(
            "{}altered beside the state {beside:?}",
            apart.collect::<String>()
        )
    }
}

/// A call on the words as they are.
pub(super) fn same_call(course: &mut Course, words: &[u64], call: Call) -> Compared {
    Both::new(&mut course.rng, words).call(course, call)
}

/// A saved state as a difference shows it.
pub(super) fn state_shown(words: &[u64]) -> String {
    let last = words.iter().rposition(|&word| word != 0);
    let to_last = &words[..last.map_or(0, |at| at + 1)];
    let (length, zeros) = (words.len(), words.len() - to_last.len());
    format!("{length} words, {zeros} zeros after {to_last:?}")
}

/// What stands at a place of a saved state.
fn word_name(at: usize) -> String {
    const HEAD: [&str; HEAD_WORDS] = ["rows", "time", "idle"];
    const ROW: [&str; SAVED_ROW_WORDS] = [
        "id", "c", "t", "d", "m", "k", "p", "wait", "place", "work", "left", "kind", "window",
        "released", "mm", "mx", "om", "ox", "broken", "held",
    ];
    match at.checked_sub(HEAD_WORDS) {
        None => HEAD[at].to_string(),
        Some(past) => {
            let (row, word) = (past / SAVED_ROW_WORDS, past % SAVED_ROW_WORDS);
            format!("row {row} {}", ROW[word])
        }
    }
}

/// Where the settled counts begin in a saved row; the broken count follows them.
const MM: usize = 14;

/// The idle ticks and the settled and broken counts that runs from fresh came
/// to: a comparison in which one of them stayed 0 says nothing about it.
#[derive(Default)]
struct Counted {
    idle: u64,
    /// mm, mx, om, ox, broken
    rows: [u64; 5],
}

impl Counted {
    fn add(&mut self, words: &[u64]) {
        let (head, rows) = words.split_at(HEAD_WORDS);
        self.idle += head[HEAD_WORDS - 1];
        for row in rows.chunks_exact(SAVED_ROW_WORDS) {
            for (sum, count) in self.rows.iter_mut().zip(&row[MM..]) {
                *sum += count;
            }
        }
    }

    fn reached(&self) -> Compared {
        let Counted { idle, rows } = self;
        if *idle > 0 && rows.iter().all(|&count| count > 0) {
            return Ok(());
        }
        Err(Difference(format!(
            "a count was never reached: idle {idle}, mm mx om ox broken {rows:?}"
        )))
    }
}
