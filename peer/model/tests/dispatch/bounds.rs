//! Each bound of a well-formed state, on one state written by hand.

use peer::answer::Answer;
use peer::dispatch::well_formed_words;

use super::literal::answer_of;
use super::places::*;

/// A state with time 10 and idle 3. Row 0 has no live job, row 1 has one.
fn two_rows() -> [u64; 643] {
    let mut words = [0; 643];
    words[..3].copy_from_slice(&[2, 10, 3]);
    let dead = [7, 2, 5, 4, 1, 2, 0, 4, 1, 0, 0, 0, 1, 2, 1, 0, 1, 0, 2, 1];
    let live = [
        8,
        3,
        6,
        2,
        2,
        64,
        1,
        5,
        63,
        3,
        5,
        1,
        u64::MAX,
        10,
        3,
        2,
        2,
        2,
        9,
        64,
    ];
    words[row(0)].copy_from_slice(&dead);
    words[row(1)].copy_from_slice(&live);
    words
}

/// Each bound by hand: row, word, value and whether the state stays well formed.
const BOUNDS: [(usize, usize, u64, bool); 59] = [
    // wait 0..T-1, and no less than the ticks left of a live job
    (0, WAIT, 0, true),
    (0, WAIT, 5, false),
    (1, WAIT, 4, false),
    (1, WAIT, 6, false),
    // the place is below k
    (0, PLACE, 2, false),
    (1, PLACE, 64, false),
    // the work left is 0..C
    (1, WORK, 1, true),
    (1, WORK, 4, false),
    (1, WORK, 0, false),
    (0, WORK, 1, false),
    // 1 to wait ticks left, above D too; none without a live job
    (1, LEFT, 1, true),
    (1, LEFT, 0, false),
    (1, LEFT, 6, false),
    (0, LEFT, 1, false),
    // kind 0 or 1; 0 without a live job
    (1, KIND, 0, true),
    (1, KIND, 2, false),
    (0, KIND, 1, false),
    // window bits from k up are clear, also where as many are set as before
    (0, WINDOW, 2, true),
    (0, WINDOW, 4, false),
    (0, WINDOW, 5, false),
    // the number of met marks is the window's, whichever of the two was changed
    (0, WINDOW, 0, false),
    (0, WINDOW, 3, false),
    (1, WINDOW, 1 << 63, false),
    (1, WINDOW, u64::MAX - 1, false),
    (0, HELD, 0, false),
    (0, HELD, 2, false),
    (0, HELD, (1 << 32) + 1, false),
    (1, HELD, 63, false),
    (1, HELD, 65, false),
    (2, HELD, 1, false),
    (31, HELD, 1, false),
    // counts
    (0, BROKEN, 3, false),
    (1, BROKEN, 10, false),
    (0, RELEASED, 3, false),
    (1, RELEASED, 9, false),
    (0, MM, 2, false),
    // the table: D up to T, C above D, k no less than m, ids apart
    (0, D, 5, true),
    (0, D, 6, false),
    (0, C, 65_535, true),
    (0, C, 65_536, false),
    (1, C, 2, false),
    (0, M, 2, true),
    (0, M, 3, false),
    (0, K, 3, true),
    (0, K, 65, false),
    // p 0 or 1, and no other word even where its low bits are
    (0, P, 1, true),
    (1, P, 0, true),
    (0, P, 2, false),
    (1, P, 2, false),
    (0, P, 65_535, false),
    (0, P, CLOCK_END, false),
    (0, P, 1 << 32, false),
    (1, P, (1 << 32) + 1, false),
    (1, P, u64::MAX, false),
    (2, P, 1, false),
    (31, P, 1, false),
    (0, 0, 8, false),
    (2, 0, 1, false),
    (31, BROKEN, 1, false),
];

/// The same for the head: word, value, and whether it stays well formed.
const HEAD_BOUNDS: [(usize, u64, bool); 8] = [
    (0, 1, false),
    (0, 3, false),
    (1, 9, false),
    (1, 11, true),
    (1, CLOCK_END, true),
    (1, CLOCK_END + 1, false),
    (2, 10, true),
    (2, 11, false),
];

#[test]
fn bounds_by_hand() {
    let words = two_rows();
    assert_eq!(well_formed_words(&words), Answer::accepted(0));
    for (at, value, expected) in HEAD_BOUNDS {
        let mut changed = words;
        changed[at] = value;
        let answer = answer_of(expected);
        assert_eq!(well_formed_words(&changed), answer, "word {at}: {value}");
    }
    for (at, field, value, expected) in BOUNDS {
        let mut changed = words;
        changed[row(at)][field] = value;
        let answer = answer_of(expected);
        assert_eq!(
            well_formed_words(&changed),
            answer,
            "row {at}, word {field}: {value}"
        );
    }
}
