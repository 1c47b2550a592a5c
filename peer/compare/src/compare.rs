//! The comparisons, part by part.

mod convert;
mod counts;
mod dispatch;
mod held;
mod pattern;
mod promise;
mod red;
mod replay;
mod report;
mod rooms;
mod table;
mod text;
mod verdict;

use crate::course::{Compared, Course, Difference};

type Run = fn(&mut Course) -> Compared;

pub struct Comparison {
    pub name: &'static str,
    /// Whether another seed brings other cases; if not, once is enough.
    pub drawn: bool,
    /// The refusal numbers that its cases must bring about, 0 for accepted.
    due: &'static [u64],
    run: Run,
}

impl Comparison {
    /// One whose cases are drawn.
    const fn drawn(name: &'static str, due: &'static [u64], run: Run) -> Comparison {
        Comparison {
            name,
            drawn: true,
            due,
            run,
        }
    }

    /// One whose cases are the same whatever the seed.
    const fn fixed(name: &'static str, due: &'static [u64], run: Run) -> Comparison {
        Comparison {
            drawn: false,
            ..Comparison::drawn(name, due, run)
        }
    }

    /// Runs every case that the seed brings.
    pub fn course(&self, seed: u64) -> Result<Course, Difference> {
        let mut course = Course::new(seed, self.name);
        (self.run)(&mut course)?;
        course.reached(self.due)?;
        Ok(course)
    }
}

/// Every comparison, in the order in which they run.
pub fn all() -> impl Iterator<Item = &'static Comparison> {
    let parts = [
        pattern::ALL,
        table::ALL,
        verdict::ALL,
        rooms::ALL,
        dispatch::ALL,
        counts::ALL,
        held::ALL,
        promise::ALL,
        red::ALL,
        text::ALL,
        report::ALL,
        convert::ALL,
        replay::ALL,
    ];
    parts.into_iter().flatten()
}
