//! Sets of rows, a bit for each: which are due for release and which have a live job.

use super::Row;
use crate::table::ROWS_MAX;

/// One bit for each row: due for release, live and mandatory, live and
/// optional. Kept beside the rows during a run, so that choosing is a look at
/// the lowest set bit.
#[derive(Clone, Copy)]
pub(super) struct Bits {
    pub due: u32,
    mandatory: u32,
    optional: u32,
}

impl Bits {
    pub fn of(rows: &[Row]) -> Bits {
        let mut bits = Bits {
            due: 0,
            mandatory: 0,
            optional: 0,
        };
        for (row, kept) in rows.iter().enumerate() {
            bits.due |= u32::from(kept.wait == 0) << row;
            if kept.is_live() {
                bits.enter(row, kept.kind);
            }
        }
        bits
    }

    pub fn enter(&mut self, row: usize, kind: u32) {
        if kind == 1 {
            self.mandatory |= 1 << row;
        } else {
            self.optional |= 1 << row;
        }
    }

    pub fn leave(&mut self, row: usize) {
        self.mandatory &= !(1 << row);
        self.optional &= !(1 << row);
    }

    /// The rows with a live job of either kind.
    pub fn live(&self) -> u32 {
        self.mandatory | self.optional
    }

    /// "Among live jobs the mandatory one of the highest row is chosen; if
    /// there is none, the optional one of the highest row; if none, the tick is
    /// idle." Row 0 is the highest, so the lowest set bit wins.
    pub fn chosen(&self) -> Option<usize> {
        if self.mandatory != 0 {
            Some(self.mandatory.trailing_zeros() as usize)
        } else if self.optional != 0 {
            Some(self.optional.trailing_zeros() as usize)
        } else {
            None
        }
    }
}

/// The rows of a set of bits, highest row first.
pub(super) fn each(mut bits: u32) -> impl Iterator<Item = usize> {
    std::iter::from_fn(move || {
        let row = bits.trailing_zeros() as usize;
        bits &= bits.wrapping_sub(1);
        (row < ROWS_MAX).then_some(row)
    })
}
