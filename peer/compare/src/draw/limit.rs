//! Tables on either side of the limit between admitted and unschedulable.
//!
//! The limit is sought with the second program's leaping search, which is
//! quick. It only finds cases: what is compared is judged by the walking one.

use peer::dispatch::P;
use peer::gen::{boundary_table, draw_patterns, table, wide_table};
use peer::pattern::{EVEN, RED};
use peer::rng::Rng;
use peer::table::{ROWS_MAX, ROW_WORDS, WORD_MAX};
use peer::verdict::verdict_leaping;

/// Rows and periods of the tables wanted.
#[derive(Clone, Copy)]
pub struct Shape {
    pub rows: usize,
    /// At least 4 for each row, or even the least costs may be too many.
    pub t_low: u32,
    pub t_high: u32,
}

/// Which patterns the rows of a table have.
#[derive(Clone, Copy)]
pub enum Patterns {
    /// All even; nothing is drawn for it.
    Even,
    /// All deeply-red; nothing is drawn for it.
    Red,
    /// All of the one, all of the other, or mixed.
    Drawn,
}

impl Patterns {
    pub fn lay(self, rng: &mut Rng, words: &mut [u32]) {
        let alike = match self {
            Patterns::Even => EVEN,
            Patterns::Red => RED,
            Patterns::Drawn => return draw_patterns(rng, words),
        };
        for row in words.chunks_exact_mut(ROW_WORDS) {
            row[P] = alike;
        }
    }
}

/// Any number of rows, with periods that leave each row some work.
pub fn any_shape(rng: &mut Rng) -> Shape {
    let rows = 1 + rng.index(ROWS_MAX);
    Shape {
        rows,
        t_low: 4 * rows as u32,
        t_high: 20 * rows as u32,
    }
}

/// Two tables that differ in one row's C, by one.
pub struct LimitPair {
    /// Admitted, close to full load.
    pub within: Vec<u32>,
    /// One unit of work more in one row: unschedulable, or C past its range
    /// where the row could bear even 65,535 units.
    pub past: Vec<u32>,
}

/// Costs grow all together until just admitted, then one row's alone; the patterns
/// are drawn.
pub fn limit_pair(rng: &mut Rng, shape: Shape) -> LimitPair {
    let mut words = light(rng, shape);
    Patterns::Drawn.lay(rng, &mut words);
    pair_of(rng, words)
}

/// Such a pair with periods of up to a few thousand, and now and then a table of full
/// load before it.
pub fn around_limit(rng: &mut Rng) -> Vec<Vec<u32>> {
    let (few, any) = (1 + rng.index(8), 1 + rng.index(ROWS_MAX));
    let rows = if rng.once_in(4) { any } else { few };
    let shape = Shape {
        rows,
        t_low: 4 * rows as u32,
        t_high: rng.word(8 * rows as u32, 3_000),
    };
    let mut tables = Vec::new();
    if rng.once_in(8) {
        tables.push(full_table(rng, shape, Patterns::Drawn));
    }
    let LimitPair { within, past } = limit_pair(rng, shape);
    tables.extend([within, past]);
    tables
}

/// Tables with periods and deadlines up to the ends of their ranges, and a pair at the
/// limit, of up to so many rows, with periods as long.
pub fn far_tables(rng: &mut Rng, rows: usize) -> [Vec<u32>; 5] {
    let shape = Shape {
        rows: 1 + rng.index(rows),
        t_low: 200,
        t_high: 65_535,
    };
    let LimitPair { within, past } = limit_pair(rng, shape);
    [
        boundary_table(rng),
        wide_table(rng),
        table(rng),
        within,
        past,
    ]
}

/// The same for tables of so many rows whose patterns and periods soon begin
/// again together: the least common multiple of all k x T is at most 576 for
/// each row.
pub fn short_cycle_pair(rng: &mut Rng, rows: usize) -> LimitPair {
    let mut words = light_short_cycle(rng, rows);
    Patterns::Drawn.lay(rng, &mut words);
    pair_of(rng, words)
}

/// The pair that comes of rows with the least cost.
fn pair_of(rng: &mut Rng, mut words: Vec<u32>) -> LimitPair {
    let rows = words.len() / ROW_WORDS;
    let shares: Vec<u64> = (0..rows).map(|_| rng.between(1, 16)).collect();
    let costs_at = |scale: u32, words: &mut [u32]| {
        for (row, share) in words.chunks_exact_mut(ROW_WORDS).zip(&shares) {
            // Of a period's ticks, so many 65,536ths.
            let cost = (u64::from(row[2]) * share * u64::from(scale)) >> 16;
            row[1] = cost.clamp(1, u64::from(WORD_MAX)) as u32;
        }
    };
    let scale = last_admitted(0, WORD_MAX, &mut words, costs_at);
    costs_at(scale, &mut words);
    let row = rng.index(rows);
    grow(&mut words, row);
    let mut past = words.clone();
    past[row * ROW_WORDS + 1] += 1;
    LimitPair {
        within: words,
        past,
    }
}

/// An admitted table in which no row's C can grow by even one.
pub fn full_table(rng: &mut Rng, shape: Shape, patterns: Patterns) -> Vec<u32> {
    let mut words = light(rng, shape);
    patterns.lay(rng, &mut words);
    let mut words = pair_of(rng, words).within;
    for row in (0..shape.rows).rev() {
        grow(&mut words, row);
    }
    words
}

/// Makes C of one row as large as the admitted table allows.
fn grow(words: &mut [u32], row: usize) {
    let at = row * ROW_WORDS + 1;
    let cost_at = |cost: u32, words: &mut [u32]| words[at] = cost;
    words[at] = last_admitted(words[at], WORD_MAX, words, cost_at);
}

/// A table whose last row takes the search through many ticks: the rows above
/// it leave one tick free in each of their longest period, so the load runs
/// just ahead of t for long. Its deadline is at the limit or next to it.
pub fn slow_table(rng: &mut Rng) -> Vec<u32> {
    let (longest, mut t) = (rng.word(2, 1_000), 1);
    let widest = if rng.once_in(2) { 3 } else { 2 + longest / 8 };
    let mut words = Vec::new();
    for id in 1..ROWS_MAX as u32 {
        let factor = rng.word(2, widest);
        if t * factor > longest {
            break;
        }
        t *= factor;
        let k = rng.word(1, 64);
        words.extend([id, factor - 1, t, t, k, k, EVEN]);
    }
    let most = WORD_MAX / t;
    let c = if rng.once_in(2) {
        most
    } else {
        rng.word(1, most)
    };
    let d = (c * t + rng.word(0, 2)).saturating_sub(1);
    let d = d.clamp(1, WORD_MAX);
    words.extend([WORD_MAX, c, rng.word(d, WORD_MAX), d, 1, 1, EVEN]);
    Patterns::Drawn.lay(rng, &mut words);
    words
}

/// Even rows of least cost, mostly with the shortest deadline highest.
fn light(rng: &mut Rng, shape: Shape) -> Vec<u32> {
    let mut rows: Vec<[u32; ROW_WORDS]> = Vec::with_capacity(shape.rows);
    for id in 1..=shape.rows as u32 {
        let t = rng.word(shape.t_low, shape.t_high);
        let d = if rng.once_in(3) {
            rng.word(t / 2 + 1, t)
        } else {
            t
        };
        let k = if rng.once_in(3) { 64 } else { 8 };
        let k = rng.word(1, k);
        let m = if rng.once_in(4) { k } else { rng.word(1, k) };
        rows.push([id, 1, t, d, m, k, EVEN]);
    }
    if !rng.once_in(8) {
        rows.sort_by_key(|row| row[3]);
    }
    rows.concat()
}

/// Even rows of least cost, each T four ticks for each row times a divisor of 12, and
/// each k a divisor of 12.
fn light_short_cycle(rng: &mut Rng, rows: usize) -> Vec<u32> {
    let mut words = Vec::with_capacity(rows * ROW_WORDS);
    for id in 1..=rows as u32 {
        let factor = rng.choose(&[1, 2, 3, 4, 6]).unwrap_or(1);
        let t = 4 * rows as u32 * factor;
        let d = if rng.once_in(3) {
            rng.word(t / 2 + 1, t)
        } else {
            t
        };
        let k = rng.choose(&[1, 2, 3, 4, 6, 12]).unwrap_or(1);
        words.extend([id, 1, t, d, rng.word(1, k), k, EVEN]);
    }
    words
}

/// The largest number up to `high` with which the table is admitted. Loads
/// never fall when costs grow, so the numbers that are admitted come first;
/// `low` is taken to be one of them.
fn last_admitted(
    mut low: u32,
    mut high: u32,
    words: &mut [u32],
    lay: impl Fn(u32, &mut [u32]),
) -> u32 {
    while low < high {
        let middle = low + (high - low).div_ceil(2);
        lay(middle, words);
        let mut room = [0; ROWS_MAX];
        if verdict_leaping(words, &mut room).is_accepted() {
            low = middle;
        } else {
            high = middle - 1;
        }
    }
    low
}
