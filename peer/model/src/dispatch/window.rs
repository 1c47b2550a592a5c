//! The window of a row: its marks, and how many of them it can spare.

/// Bits 0 to k - 1.
pub(super) fn marks(k: u32) -> u64 {
    1u64.checked_shl(k).map_or(u64::MAX, |bit| bit - 1)
}

/// "Spare becomes the largest n for which the newest k - n marks still hold at
/// least m; if the whole window holds fewer than m it is 0" (document 02, 1/14).
///
/// More of the newest marks hold no fewer met ones, so the fewest that hold m are
/// found by halves.
pub fn spare(window: u64, m: u32, k: u32) -> u32 {
    let holds = |newest: u32| (window & marks(newest)).count_ones() >= m;
    if !holds(k) {
        return 0;
    }
    let (mut fewest, mut enough) = (0, k);
    while fewest < enough {
        let middle = fewest + (enough - fewest) / 2;
        if holds(middle) {
            enough = middle;
        } else {
            fewest = middle + 1;
        }
    }
    k - enough
}
