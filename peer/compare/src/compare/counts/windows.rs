//! Spare, read off every window of few marks and off many of more: against its
//! sentence, and against the second program's own figure.
//!
//! The windows are laid into the rows of one state, each beside others with
//! another m and k, and only those words of it ever change.

use peer::brute::spare::{by_sentence, met_less_m};
use peer::counts::{counts_words, COUNT_WORDS};
use peer::dispatch::{fresh_words, run_words, HELD, WINDOW};
use peer::dispatch::{HEAD_WORDS, SAVED_ROW_WORDS, STATE_WORDS};
use peer::pattern::K_MAX;
use peer::rng::Rng;
use peer::table::{ROWS_MAX, ROW_WORDS};

use crate::course::{shown, Compared, Course, Difference};
use crate::ffi;

/// Marks of a window up to which there is every one.
const EVERY: u32 = 16;

/// Those windows, each with every m: k x 2^k for each k.
const EVERY_CASES: u64 = 1_966_082;

/// Windows of more marks, drawn freely.
const DRAWN: u32 = 400_000;

/// Ticks before the first window is laid, so that the rows have counts.
const TICKS: u32 = 1_000;

/// What each word of a room is beforehand.
const BEFORE: u64 = 0xA5A5_A5A5_A5A5_A5A5;

/// The words of a saved row that change, beside the window and its met marks.
const M: usize = 4;
const K: usize = 5;

/// The spare of a row among its counts.
const SPARE: usize = COUNT_WORDS - 1;

/// A window of k marks, of which m are to be met.
#[derive(Clone, Copy)]
struct Marks {
    window: u64,
    m: u32,
    k: u32,
}

/// One state, its rows filled with windows in turn.
struct Rows {
    words: [u64; STATE_WORDS],
    /// Rows filled since the last were asked about.
    filled: usize,
    /// Windows with more spare than met marks less m.
    raised: u64,
    /// Windows that hold fewer than m.
    short: u64,
}

impl Rows {
    /// 32 rows with more work than ticks, no two with the same period. Every job
    /// is mandatory, so that the places stay 0, which is below any k.
    fn new() -> Rows {
        let row = |id| [id, 2, 20 + id, 20 + id, 1, 1, id % 2];
        let table: Vec<[u32; ROW_WORDS]> = (1..=ROWS_MAX as u32).map(row).collect();
        let mut words = [0; STATE_WORDS];
        fresh_words(table.as_flattened(), &mut words);
        run_words(&mut words, TICKS);
        Rows {
            words,
            filled: 0,
            raised: 0,
            short: 0,
        }
    }

    /// Lays a window into the next row; once all are filled they are asked about.
    fn lay(&mut self, course: &mut Course, marks: Marks) -> Compared {
        let row = HEAD_WORDS + self.filled * SAVED_ROW_WORDS;
        self.words[row + M] = u64::from(marks.m);
        self.words[row + K] = u64::from(marks.k);
        self.words[row + WINDOW] = marks.window;
        self.words[row + HELD] = marks.window.count_ones().into();
        self.filled += 1;
        if self.filled < ROWS_MAX {
            return Ok(());
        }
        self.ask(course)
    }

    /// Asks about the rows filled since they were last asked about.
    fn ask(&mut self, course: &mut Course) -> Compared {
        for row in 0..self.filled {
            self.same_spare(course, row)?;
        }
        self.filled = 0;
        Ok(())
    }

    fn marks(&self, row: usize) -> Marks {
        let row = HEAD_WORDS + row * SAVED_ROW_WORDS;
        Marks {
            window: self.words[row + WINDOW],
            m: self.words[row + M] as u32,
            k: self.words[row + K] as u32,
        }
    }

    /// Both answers on a row with all its counts, and the sentence's figure.
    fn same_spare(&mut self, course: &mut Course, row: usize) -> Compared {
        let Marks { window, m, k } = self.marks(row);
        let (mut room, mut peer_room) = ([BEFORE; COUNT_WORDS], [BEFORE; COUNT_WORDS]);
        let first = ffi::counts(&self.words, row as u32, &mut room);
        let peer = counts_words(&self.words, row as u32, &mut peer_room);
        let said = by_sentence(window, m, k);
        self.raised += u64::from(met_less_m(window, m) < said);
        self.short += u64::from(window.count_ones() < m);
        let same = first == peer && room == peer_room && room[SPARE] == u64::from(said);
        course.settle(peer, same, || {
            let (first, peer, words) = (shown(first), shown(peer), self.words);
            format!(
                "spare of window {window:#b} m {m} k {k}, by its sentence {said}\n\
                 first {first} room {room:?}\npeer  {peer} room {peer_room:?}\n\
                 row {row} of words {words:?}"
            )
        })
    }

    /// The rows that are left, and whether there were windows that tell spare from
    /// met marks less m, and windows that hold fewer than m.
    fn end(mut self, course: &mut Course) -> Compared {
        self.ask(course)?;
        if self.raised > 0 && self.short > 0 {
            return Ok(());
        }
        let Rows { raised, short, .. } = self;
        let text = format!("{raised} windows with more than met less m, {short} with fewer than m");
        Err(Difference(text))
    }
}

/// The window with bits from k up clear.
fn cut(window: u64, k: u32) -> u64 {
    window & u64::MAX >> (K_MAX - k)
}

/// All windows of up to 16 marks with every m: each word as a window of every k
/// that it fits, so that rows with another k stand beside each other.
fn every() -> impl Iterator<Item = Marks> {
    let words = 0..1u64 << EVERY;
    let fitting = |window: u64| (1..=EVERY).map(move |k| (window, k));
    let fits = |&(window, k): &(u64, u32)| cut(window, k) == window;
    let with_m = |(window, k)| (1..=k).map(move |m| Marks { window, m, k });
    words.flat_map(fitting).filter(fits).flat_map(with_m)
}

/// Words of marks: none met, every other one, and for each place one met there,
/// one missed there, all older ones met, all newer ones met.
fn ends() -> impl Iterator<Item = u64> {
    let each = |at: u32| [1 << at, !(1 << at), u64::MAX << at, !(u64::MAX << at)];
    let alternating = [0x5555_5555_5555_5555, 0xAAAA_AAAA_AAAA_AAAA];
    [0].into_iter()
        .chain(alternating)
        .chain((0..K_MAX).flat_map(each))
}

/// Those words as windows of every k above 16, with every m.
fn long_ends() -> impl Iterator<Item = Marks> {
    let with_k = |window| (EVERY + 1..=K_MAX).map(move |k| (cut(window, k), k));
    let with_m = |(window, k)| (1..=k).map(move |m| Marks { window, m, k });
    ends().flat_map(with_k).flat_map(with_m)
}

/// Every window of up to 16 marks, and those at the ends of more.
pub fn all(course: &mut Course) -> Compared {
    let mut rows = Rows::new();
    for marks in every() {
        rows.lay(course, marks)?;
    }
    rows.ask(course)?;
    if course.cases() != EVERY_CASES {
        return Err(Difference(format!("{} windows", course.cases())));
    }
    for marks in long_ends() {
        rows.lay(course, marks)?;
    }
    rows.end(course)
}

/// A window of more than 16 marks with few, many or half of them met, and an m
/// that is mostly near their number.
fn long(rng: &mut Rng) -> Marks {
    let k = rng.word(EVERY + 1, K_MAX);
    let mut window = rng.bits();
    for _ in 0..rng.below(4) {
        window &= rng.bits();
    }
    if rng.once_in(2) {
        window = !window;
    }
    let window = cut(window, k);
    let near = window.count_ones().saturating_sub(rng.word(0, 4)) + rng.word(0, 1);
    let m = if rng.once_in(3) {
        rng.word(1, k)
    } else {
        near.clamp(1, k)
    };
    Marks { window, m, k }
}

/// Windows of more than 16 marks.
pub fn drawn(course: &mut Course) -> Compared {
    let mut rows = Rows::new();
    for _ in 0..DRAWN {
        let marks = long(&mut course.rng);
        rows.lay(course, marks)?;
    }
    rows.end(course)
}
