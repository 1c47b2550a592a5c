//! Patterns: which jobs are mandatory.

use crate::{ffi, Refusal};

/// The kind of a job.
#[derive(Clone, Copy, Debug, PartialEq, Eq, Hash)]
pub enum Kind {
    /// It has to finish by its deadline.
    Mandatory,
    /// It may be let go.
    Optional,
}

/// Which of a row's jobs are mandatory: what its seventh word, p, names.
#[derive(Clone, Copy, Debug, PartialEq, Eq, Hash)]
pub enum Pattern {
    /// p 0: the even pattern. [`job`] and [`word`] tell it.
    Even,
    /// p 1: the first m of every k jobs, so job a, from 0, when a mod k is below m.
    DeeplyRed,
}

impl Pattern {
    /// The pattern that a word p names, `None` where p is above 1. A table with such a p is refused with 16.
    #[must_use]
    pub const fn of(p: u32) -> Option<Pattern> {
        match p {
            0 => Some(Pattern::Even),
            1 => Some(Pattern::DeeplyRed),
            _ => None,
        }
    }

    /// Its word p.
    ///
    /// ```
    /// use galleypoppy::{check, Pattern, Refusal};
    ///
    /// # fn main() -> Result<(), Refusal> {
    /// let radio = [4, 20, 100, 100, 2, 4, Pattern::DeeplyRed.p()];
    /// assert_eq!(check(&radio)?, 1);
    /// # Ok(())
    /// # }
    /// ```
    #[must_use]
    pub const fn p(self) -> u32 {
        match self {
            Pattern::Even => 0,
            Pattern::DeeplyRed => 1,
        }
    }
}

/// The kind of job number `job`, from 0, of a task with m out of k by the even rule.
///
/// It tells of a row with p 0 only. In a row with p 1, job a is mandatory when a mod k is below m.
///
/// ```
/// use galleypoppy::{job, Kind, Refusal};
///
/// assert_eq!(job(2, 3, 1), Ok(Kind::Mandatory));
/// assert_eq!(job(2, 3, 2), Ok(Kind::Optional));
/// assert_eq!(job(1, 65, 0), Err(Refusal::K(0)));
/// ```
///
/// # Errors
///
/// Refusals 8, 9, each with row 0.
pub fn job(m: u32, k: u32, job: u32) -> Result<Kind, Refusal> {
    let value = ffi::job(m, k, job)?;
    Ok(if value == 1 {
        Kind::Mandatory
    } else {
        Kind::Optional
    })
}

/// The pattern word of m out of k by the even rule: bit a, for a below k, is set exactly when job a is mandatory.
///
/// It tells of a row with p 0 only. In a row with p 1, those bits are 0 to m - 1.
///
/// ```
/// assert_eq!(galleypoppy::word(3, 5), Ok(0b01011));
/// ```
///
/// # Errors
///
/// Refusals 8, 9, each with row 0.
pub fn word(m: u32, k: u32) -> Result<u64, Refusal> {
    ffi::word(m, k)
}
