//! The refusals of documents 01 and 02.

use core::error::Error;
use core::fmt;

/// Why a call was refused and, where the documents return one, the row or the place that goes with it.
#[derive(Clone, Copy, Debug, PartialEq, Eq, Hash)]
#[non_exhaustive]
pub enum Refusal {
    /// 1: words not a multiple of seven.
    NotWholeRows,
    /// 2: no rows.
    NoRows,
    /// 3: over 32 rows.
    ManyRows,
    /// 4: id of this row outside 1..65535.
    Id(u64),
    /// 5: T of this row outside 1..65535.
    T(u64),
    /// 6: D of this row outside 1..T.
    D(u64),
    /// 7: C of this row outside 1..65535.
    C(u64),
    /// 8: k of this row outside 1..64.
    K(u64),
    /// 9: m of this row outside 1..k.
    M(u64),
    /// 10: the id of this row stands in an earlier row.
    Repeated(u64),
    /// 11: unschedulable; this is the first row that doesn't fit.
    Unschedulable(u64),
    /// 12: text fault at this place.
    Text(u64),
    /// 13: lent room too short for the answer.
    Room,
    /// 14: state not well formed.
    State,
    /// 15: time + n past the clock's end.
    Clock,
    /// 16: p of this row above 1. It comes after 9 and before 10.
    P(u64),
    /// 17: this row is the first that the old form of a text cannot say: its p is 1. It comes before 13.
    NotOld(u64),
    /// 18: the number at this place of a log, from 0, outside 1..C of the row whose job it is for.
    Log(u64),
    /// Any other number, with what came beside it: the linked archive is not the one that this package goes with.
    Other(u64, u64),
}

impl Refusal {
    /// The refusal of an answer.
    pub(crate) fn numbered(number: u64, also: u64) -> Refusal {
        match number {
            1 => Refusal::NotWholeRows,
            2 => Refusal::NoRows,
            3 => Refusal::ManyRows,
            4 => Refusal::Id(also),
            5 => Refusal::T(also),
            6 => Refusal::D(also),
            7 => Refusal::C(also),
            8 => Refusal::K(also),
            9 => Refusal::M(also),
            10 => Refusal::Repeated(also),
            11 => Refusal::Unschedulable(also),
            12 => Refusal::Text(also),
            13 => Refusal::Room,
            14 => Refusal::State,
            15 => Refusal::Clock,
            16 => Refusal::P(also),
            17 => Refusal::NotOld(also),
            18 => Refusal::Log(also),
            _ => Refusal::Other(number, also),
        }
    }

    /// Its number in documents 01 and 02.
    #[must_use]
    pub fn number(self) -> u64 {
        match self {
            Refusal::NotWholeRows => 1,
            Refusal::NoRows => 2,
            Refusal::ManyRows => 3,
            Refusal::Id(_) => 4,
            Refusal::T(_) => 5,
            Refusal::D(_) => 6,
            Refusal::C(_) => 7,
            Refusal::K(_) => 8,
            Refusal::M(_) => 9,
            Refusal::Repeated(_) => 10,
            Refusal::Unschedulable(_) => 11,
            Refusal::Text(_) => 12,
            Refusal::Room => 13,
            Refusal::State => 14,
            Refusal::Clock => 15,
            Refusal::P(_) => 16,
            Refusal::NotOld(_) => 17,
            Refusal::Log(_) => 18,
            Refusal::Other(number, _) => number,
        }
    }

    /// The row or the place that goes with it, where there is one.
    #[must_use]
    pub fn at(self) -> Option<u64> {
        match self {
            Refusal::Id(row)
            | Refusal::T(row)
            | Refusal::D(row)
            | Refusal::C(row)
            | Refusal::K(row)
            | Refusal::M(row)
            | Refusal::P(row)
            | Refusal::NotOld(row)
            | Refusal::Repeated(row)
            | Refusal::Unschedulable(row) => Some(row),
            Refusal::Text(place) | Refusal::Log(place) => Some(place),
            _ => None,
        }
    }
}

/// The documents' words for it, then the number and the row or place as the printing program has them.
impl fmt::Display for Refusal {
    fn fmt(&self, f: &mut fmt::Formatter<'_>) -> fmt::Result {
        f.write_str(match self {
            Refusal::NotWholeRows => "words not a multiple of seven",
            Refusal::NoRows => "no rows",
            Refusal::ManyRows => "over 32 rows",
            Refusal::Id(_) => "id outside its range",
            Refusal::T(_) => "T outside its range",
            Refusal::D(_) => "D outside its range",
            Refusal::C(_) => "C outside its range",
            Refusal::K(_) => "k outside its range",
            Refusal::M(_) => "m outside its range",
            Refusal::Repeated(_) => "id stands in an earlier row",
            Refusal::Unschedulable(_) => "unschedulable",
            Refusal::Text(_) => "text fault",
            Refusal::Room => "lent room too short for the answer",
            Refusal::State => "state not well formed",
            Refusal::Clock => "time + n past the clock's end",
            Refusal::P(_) => "p above 1",
            Refusal::NotOld(_) => "a row that the old form cannot say",
            Refusal::Log(_) => "a number of the log outside its range",
            Refusal::Other(..) => "unknown to this package",
        })?;
        write!(f, " (refused={}", self.number())?;
        if let Some(at) = self.at() {
            write!(f, " at={at}")?;
        }
        f.write_str(")")
    }
}

impl Error for Refusal {}
