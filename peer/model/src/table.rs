//! "A task table": seven words to a row, and when the words are well formed.

use crate::answer::{refusal, Answer};
use crate::pattern::{Pattern, K_MAX, RED};

/// "It has 1 to 32 rows."
pub const ROWS_MAX: usize = 32;

/// "six to a row: id, C, T, D, m, k", and "A row gains a seventh word p" (document
/// 02, 3/14).
pub const ROW_WORDS: usize = 7;

/// The upper end of id, T and C: 65535.
pub const WORD_MAX: u32 = 65_535;

/// One row of a table, in the order of its words.
#[derive(Clone, Copy, Debug, PartialEq, Eq)]
pub struct TaskRow {
    pub id: u32,
    pub c: u32,
    pub t: u32,
    pub d: u32,
    pub m: u32,
    pub k: u32,
    /// "0 for even, 1 for deeply-red"
    pub p: u32,
}

impl TaskRow {
    pub fn of(seven: &[u32; ROW_WORDS]) -> TaskRow {
        let [id, c, t, d, m, k, p] = *seven;
        TaskRow {
            id,
            c,
            t,
            d,
            m,
            k,
            p,
        }
    }

    pub fn words(&self) -> [u32; ROW_WORDS] {
        [self.id, self.c, self.t, self.d, self.m, self.k, self.p]
    }

    /// The row's own pattern.
    pub fn pattern(&self) -> Pattern {
        let TaskRow { m, k, p, .. } = *self;
        Pattern { m, k, p }
    }

    /// The first of 4 to 9 that applies to the row by itself, and 16 after them. "C
    /// above D is well formed; the verdict turns it down", so C is held to its range
    /// only.
    fn out_of_range(&self) -> Option<u64> {
        let ranges = [
            (refusal::ID, self.id, WORD_MAX),
            (refusal::T, self.t, WORD_MAX),
            (refusal::D, self.d, self.t),
            (refusal::C, self.c, WORD_MAX),
            (refusal::K, self.k, K_MAX),
            (refusal::M, self.m, self.k),
        ];
        let outside = ranges
            .iter()
            .find(|(_, word, end)| !(1..=*end).contains(word));
        let number = outside.map(|(number, _, _)| *number);
        number.or((self.p > RED).then_some(refusal::P))
    }
}

/// A table whose words have been found well formed; there is no other way to
/// come by one, so no rule that divides by T or k meets a zero.
#[derive(Clone, Debug, PartialEq, Eq)]
pub struct Table {
    rows: Vec<TaskRow>,
}

impl Table {
    /// "for words 1, 2, 3, then row by row 4 to 10 in number order", where 16 "comes
    /// after 9 and before 10".
    pub fn of(words: &[u32]) -> Result<Table, Answer> {
        let (sevens, rest) = words.as_chunks::<ROW_WORDS>();
        if !rest.is_empty() {
            return Err(Answer::refused(refusal::NOT_SEVEN));
        }
        if sevens.is_empty() {
            return Err(Answer::refused(refusal::NO_ROWS));
        }
        if sevens.len() > ROWS_MAX {
            return Err(Answer::refused(refusal::OVER_32_ROWS));
        }
        let mut rows: Vec<TaskRow> = Vec::with_capacity(sevens.len());
        for seven in sevens {
            let row = TaskRow::of(seven);
            if let Some(number) = fault(&row, &rows) {
                return Err(Answer::refused_at(number, rows.len() as u64));
            }
            rows.push(row);
        }
        Ok(Table { rows })
    }

    pub fn rows(&self) -> &[TaskRow] {
        &self.rows
    }
}

/// The first of 4 to 10 and 16 that applies to a row, given the rows before it.
fn fault(row: &TaskRow, earlier: &[TaskRow]) -> Option<u64> {
    row.out_of_range().or_else(|| {
        let repeated = earlier.iter().any(|other| other.id == row.id);
        repeated.then_some(refusal::ID_REPEATED)
    })
}

/// Whether the words are a well-formed table; the value is its number of rows.
pub fn check(words: &[u32]) -> Answer {
    match Table::of(words) {
        Ok(table) => Answer::accepted(table.rows().len() as u64),
        Err(answer) => answer,
    }
}
