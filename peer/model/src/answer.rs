//! The shape of every answer, and the table "Refusal numbers".

/// "Refusal numbers": the table of document 01, line by line, and what document 02
/// adds to it.
pub mod refusal {
    /// "words not a multiple of six"; since document 02, 3/14, of seven
    pub const NOT_SEVEN: u64 = 1;
    /// "no rows"
    pub const NO_ROWS: u64 = 2;
    /// "over 32 rows"
    pub const OVER_32_ROWS: u64 = 3;
    /// "id, T, D, C, k, m outside its range"
    pub const ID: u64 = 4;
    pub const T: u64 = 5;
    pub const D: u64 = 6;
    pub const C: u64 = 7;
    pub const K: u64 = 8;
    pub const M: u64 = 9;
    /// "id stands in an earlier row"
    pub const ID_REPEATED: u64 = 10;
    /// "unschedulable"
    pub const UNSCHEDULABLE: u64 = 11;
    /// "text fault"
    pub const TEXT_FAULT: u64 = 12;
    /// "lent room too short for the answer"
    pub const ROOM_TOO_SHORT: u64 = 13;
    /// "state not well formed"
    pub const STATE: u64 = 14;
    /// "time + n past the clock's end"
    pub const CLOCK: u64 = 15;
    /// "p above 1" (document 02, 3/14)
    pub const P: u64 = 16;
    /// "a row with p 1" (document 02, 4/14)
    pub const P_IS_1: u64 = 17;
    /// a measured job length, "the first number out of range" (document 02, 5/14)
    pub const LENGTH: u64 = 18;
}

/// What a call gives back beside the lent room.
///
/// `refusal` 0 means accepted, and `value` is then the answer's value. Any
/// other `refusal` is a number of the document's table, and `value` is the row
/// or place it says is "also returned", or 0 where the table names none.
#[derive(Clone, Copy, Debug, PartialEq, Eq, Hash)]
pub struct Answer {
    pub refusal: u64,
    pub value: u64,
}

impl Answer {
    pub const fn accepted(value: u64) -> Answer {
        Answer { refusal: 0, value }
    }

    /// A refusal with nothing "also returned".
    pub const fn refused(refusal: u64) -> Answer {
        Answer { refusal, value: 0 }
    }

    /// A refusal that names a row or a place.
    pub const fn refused_at(refusal: u64, at: u64) -> Answer {
        Answer { refusal, value: at }
    }

    pub const fn is_accepted(self) -> bool {
        self.refusal == 0
    }

    /// The row or place "where there is one": the column "also returned" has
    /// an entry for the numbers 4 to 12, 16 and 17 come "with its row", 18 "with its place",
    /// and no other has one.
    pub const fn at(self) -> Option<u64> {
        match self.refusal {
            refusal::ID..=refusal::TEXT_FAULT | refusal::P..=refusal::LENGTH => Some(self.value),
            _ => None,
        }
    }
}
