//! Spare: the dispatcher's figure, the sentence that defines it and the misses
//! that a window bears are one number.

use peer::answer::Answer;
use peer::brute::spare::{by_misses, by_sentence, met_less_m};
use peer::dispatch::{fresh, run, spare};
use peer::rng::Rng;

/// The three figures, which must agree, and what they come to.
fn agreed(window: u64, m: u32, k: u32) -> u32 {
    let figure = spare(window, m, k);
    let said = by_sentence(window, m, k);
    let borne = by_misses(window, m, k);
    assert!(
        figure == said && said == borne,
        "window {window:#b} m {m} k {k}: {figure}, by the sentence {said}, by misses {borne}"
    );
    figure
}

/// The window of k met marks, and the last of all windows of k marks.
fn whole(k: u32) -> u64 {
    u64::MAX >> (64 - k)
}

/// Every pair of a table with k in the range.
fn pairs(ks: std::ops::RangeInclusive<u32>) -> impl Iterator<Item = (u32, u32)> {
    ks.flat_map(|k| (1..=k).map(move |m| (m, k)))
}

/// How often a window was looked at that tells one figure from another.
#[derive(Debug, Default)]
struct Seen {
    windows: u64,
    /// Windows with more spare than met marks less m.
    raised: u64,
    /// Windows that hold fewer than m.
    short: u64,
}

impl Seen {
    /// The three agree; met marks less m is never above them, and nothing can be
    /// spared of a window that holds fewer than m.
    fn look(&mut self, window: u64, m: u32, k: u32) {
        let figure = agreed(window, m, k);
        let before = met_less_m(window, m);
        assert!(before <= figure, "window {window:#b} m {m} k {k}");
        assert!(figure <= k - m, "window {window:#b} m {m} k {k}");
        if window.count_ones() < m {
            assert_eq!(figure, 0, "window {window:#b} m {m} k {k}");
            self.short += 1;
        }
        self.raised += u64::from(before < figure);
        self.windows += 1;
    }
}

#[test]
fn every_window_up_to_16_marks() {
    let mut seen = Seen::default();
    for (m, k) in pairs(1..=16) {
        for window in 0..=whole(k) {
            seen.look(window, m, k);
        }
    }
    assert_eq!(seen.windows, 1_966_082);
    assert!(seen.raised > 500_000 && seen.short > 500_000, "{seen:?}");
}

/// Windows at the ends: all met, none, one met or one missed at each place, the
/// older or the newer marks met, every other one.
fn end_windows(k: u32) -> Vec<u64> {
    let mut windows = vec![0, 0x5555_5555_5555_5555, 0xAAAA_AAAA_AAAA_AAAA];
    for at in 0..k {
        windows.extend([1 << at, !(1 << at), u64::MAX << at, !(u64::MAX << at)]);
    }
    windows.iter().map(|window| window & whole(k)).collect()
}

#[test]
fn windows_at_the_ends() {
    let mut seen = Seen::default();
    for (m, k) in pairs(1..=64) {
        for window in end_windows(k) {
            seen.look(window, m, k);
        }
    }
    assert!(seen.raised > 50_000 && seen.short > 50_000, "{seen:?}");
}

/// A window with few, many or about as many met marks as missed ones.
fn drawn_window(rng: &mut Rng, k: u32) -> u64 {
    let mut window = rng.bits();
    for _ in 0..rng.below(4) {
        window &= rng.bits();
    }
    if rng.once_in(2) {
        window = !window;
    }
    window & whole(k)
}

#[test]
fn drawn_windows() {
    let mut rng = Rng::new(70);
    let mut seen = Seen::default();
    for _ in 0..300_000 {
        let k = rng.word(1, 64);
        let m = rng.word(1, k);
        seen.look(drawn_window(&mut rng, k), m, k);
    }
    assert!(seen.raised > 50_000 && seen.short > 50_000, "{seen:?}");
}

/// "So the window met, missed, missed (newest last) gives 0 and missed, missed,
/// met gives 2."
#[test]
fn document_02_by_hand() {
    assert_eq!(agreed(0b100, 1, 3), 0);
    assert_eq!(agreed(0b001, 1, 3), 2);
    // "a window whose only met mark is its newest reads 0"
    assert_eq!(met_less_m(0b001, 1), 0);
}

#[test]
fn windows_by_hand() {
    for (window, m, k, figure) in [
        (0b1, 1, 1, 0),
        (0b0, 1, 1, 0),
        (0b010, 1, 3, 1),
        (0b111, 1, 3, 2),
        (0b011, 2, 3, 1),
        (0b101, 2, 3, 0),
        (0b110, 2, 3, 0),
        (0b01_0101, 2, 6, 3),
        (1, 1, 64, 63),
        (1 << 31, 1, 64, 32),
        (1 << 32, 1, 64, 31),
        (1 << 63, 1, 64, 0),
        (1 | 1 << 63, 2, 64, 0),
        (1 | 1 << 62, 2, 64, 1),
        (u64::MAX, 64, 64, 0),
        (u64::MAX >> 1, 63, 64, 1),
        (u64::MAX << 1, 63, 64, 0),
        (u64::MAX, 1, 64, 63),
    ] {
        assert_eq!(
            agreed(window, m, k),
            figure,
            "window {window:#b} m {m} k {k}"
        );
    }
}

/// No table has such an m or k, and no window such bits; the figures are there
/// all the same, and alike. Marks from k up are no part of the window. One of
/// over 64 marks fits no word, so that no miss can be shifted into it.
#[test]
fn pairs_of_no_table() {
    let mut rng = Rng::new(71);
    for _ in 0..50_000 {
        let (window, m, k) = (rng.bits(), rng.word(0, 80), rng.word(0, 64));
        assert!(agreed(window, m, k) <= k);
        let past = k + 65;
        assert_eq!(spare(window, m, past), by_sentence(window, m, past));
    }
    assert_eq!(agreed(u64::MAX, 0, 5), 5);
    assert_eq!(agreed(u64::MAX, 6, 5), 0);
}

/// The dispatcher counts what spare foretells: so many jobs in a row are missed
/// before a window is broken, and the next one breaks it.
#[test]
fn broken_after_the_last_spare_miss() {
    let mut rng = Rng::new(72);
    let mut spared = 0;
    for _ in 0..60_000 {
        let k = rng.word(1, 64);
        let m = rng.word(1, k);
        // A job in each tick, with more work than it has ticks.
        let mut state = fresh(&[1, 2, 1, 1, m, k, 1]).unwrap();
        state.row[0].window = drawn_window(&mut rng, k);
        state.row[0].held = state.row[0].window.count_ones();
        let figure = spare(state.row[0].window, m, k);
        assert_eq!(run(&mut state, figure), Answer::accepted(0));
        assert_eq!(state.row[0].broken, 0, "m {m} k {k}, {figure} misses");
        assert_eq!(run(&mut state, 1), Answer::accepted(0));
        assert_eq!(state.row[0].broken, 1, "m {m} k {k}, {figure} misses");
        spared += u64::from(figure);
    }
    assert!(spared > 100_000, "{spared}");
}

#[test]
fn spare_marks() {
    assert_eq!(spare(0, 0, 0), 0);
    assert_eq!(spare(0, 1, 4), 0);
    assert_eq!(spare(0b1011, 2, 4), 2);
    assert_eq!(spare(0b1011, 3, 4), 0);
    assert_eq!(spare(u64::MAX, 1, 64), 63);
    assert_eq!(spare(u64::MAX, u32::MAX, 64), 0);
}
