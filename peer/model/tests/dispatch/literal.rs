//! The rules written out on the words of a saved state: the four steps of a tick,
//! the conditions of a well-formed state, and the fresh one.

use peer::answer::Answer;
use peer::brute::held::met_among;
use peer::brute::pattern::is_mandatory;
use peer::pattern::Pattern;
use peer::table::check;

use super::places::*;

/// Step 1: "Every row with wait 0 releases its next job".
fn release_literally(row: &mut [u64]) {
    if row[WAIT] == 0 {
        row[WORK] = row[C];
        row[LEFT] = row[D];
        let [m, k, p] = [M, K, P].map(|word| row[word] as u32);
        let kind = is_mandatory(Pattern { m, k, p }, row[PLACE] as u32);
        row[KIND] = u64::from(kind);
        row[WAIT] = row[T];
        row[PLACE] = (row[PLACE] + 1) % row[K];
        row[RELEASED] += 1;
    }
}

/// The met marks of the row's window, counted anew.
fn held_literally(row: &[u64]) -> u64 {
    met_among(row[WINDOW], row[K] as u32).into()
}

/// Step 4, for a row that had a live job in the tick.
fn settle_literally(row: &mut [u64]) {
    let met = row[WORK] == 0;
    if !met && row[LEFT] != 0 {
        return;
    }
    let count = match (row[KIND], met) {
        (1, true) => MM,
        (1, false) => MM + 1,
        (_, true) => MM + 2,
        (_, false) => MM + 3,
    };
    row[count] += 1;
    let older = u128::from(row[WINDOW]) << 1;
    row[WINDOW] = ((older | u128::from(met)) % (1 << row[K])) as u64;
    row[HELD] = held_literally(row);
    if row[HELD] < row[M] {
        row[BROKEN] += 1;
    }
    row[WORK..=KIND].fill(0);
}

/// One tick on a well-formed saved state below the clock's end, step by step.
pub fn tick_literally(words: &mut [u64]) {
    let rows = words[0] as usize;
    for at in 0..rows {
        release_literally(&mut words[row(at)]);
    }
    let live: Vec<usize> = (0..rows).filter(|&at| words[row(at)][WORK] > 0).collect();
    let of_kind = |kind: u64| live.iter().find(|&&at| words[row(at)][KIND] == kind);
    match of_kind(1).or(of_kind(0)).copied() {
        Some(at) => words[row(at)][WORK] -= 1,
        None => words[2] += 1,
    }
    words[1] += 1;
    for at in 0..rows {
        words[row(at)][WAIT] -= 1;
    }
    for at in live {
        words[row(at)][LEFT] -= 1;
        settle_literally(&mut words[row(at)]);
    }
}

/// The conditions on one row, word by word, in 128 bits so that no sum wraps.
fn row_well_formed_literally(row: &[u64], time: u64) -> bool {
    let settled: u128 = row[MM..MM + 4].iter().map(|&count| u128::from(count)).sum();
    let live = row[WORK] > 0;
    let job = if live {
        (1..=row[WAIT]).contains(&row[LEFT]) && (row[KIND] == 0 || row[KIND] == 1)
    } else {
        row[LEFT] == 0 && row[KIND] == 0
    };
    let clear = u128::from(row[WINDOW]) < 1 << row[K];
    row[RELEASED] <= time
        && u128::from(row[RELEASED]) == settled + u128::from(live)
        && u128::from(row[BROKEN]) <= settled
        && row[WAIT] < row[T]
        && row[PLACE] < row[K]
        && row[WORK] <= row[C]
        && job
        && clear
        && row[HELD] == held_literally(row)
}

/// "A state offered by a caller is well formed when .."
pub fn well_formed_literally(words: &[u64]) -> bool {
    if words.len() != 643 || words[0] > 32 {
        return false;
    }
    let rows = words[0] as usize;
    let mut table = Vec::new();
    for at in 0..rows {
        for word in &words[row(at)][..7] {
            // 2^32 - 1 is outside every field's range, as any larger word is.
            table.push(u32::try_from(*word).unwrap_or(u32::MAX));
        }
    }
    check(&table).is_accepted()
        && words[1] <= CLOCK_END
        && words[2] <= words[1]
        && (0..rows).all(|at| row_well_formed_literally(&words[row(at)], words[1]))
        && words[3 + 20 * rows..].iter().all(|&word| word == 0)
}

/// "14 | state not well formed", or accepted.
pub fn answer_of(well_formed: bool) -> Answer {
    if well_formed {
        Answer::accepted(0)
    } else {
        Answer::refused(14)
    }
}

/// "Fresh: time 0, idle 0, wait 0, place 0, nothing live, counts 0, window of k
/// met marks", and k is their number.
pub fn fresh_literally(table: &[u32]) -> Vec<u64> {
    let mut words = vec![0; 643];
    words[0] = table.len() as u64 / 7;
    for (at, seven) in table.chunks(7).enumerate() {
        let saved = &mut words[row(at)];
        for (word, field) in saved.iter_mut().zip(seven) {
            *word = u64::from(*field);
        }
        saved[WINDOW] = (0..seven[5]).map(|bit| 1 << bit).sum();
        saved[HELD] = u64::from(seven[5]);
    }
    words
}
