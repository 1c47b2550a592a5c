//! Runs the comparisons; status 0 when the programs agree on every case, 1 at
//! the first difference, 2 when it was called wrongly.
//!
//! `--seed S` draws other cases. `--long` goes on with the seeds after it until
//! interrupted, or with `--minutes N` for that long; the first round is always
//! run whole. `--only NAME` runs the comparisons whose names begin so.
//! `--answers` shows how often each refusal number was given.

use std::env;
use std::process::ExitCode;
use std::time::{Duration, Instant};

use compare::compare::{all, Comparison};
use compare::course::Course;

/// The seed of every run that names none.
const SEED: u64 = 1;

const USAGE: &str = "usage: compare [--long] [--minutes N] [--seed S] [--only NAME] [--answers]";

struct Settings {
    seed: u64,
    long: bool,
    minutes: Option<u64>,
    only: String,
    answers: bool,
}

impl Settings {
    fn of(mut words: impl Iterator<Item = String>) -> Option<Settings> {
        let mut settings = Settings {
            seed: SEED,
            long: false,
            minutes: None,
            only: String::new(),
            answers: false,
        };
        while let Some(word) = words.next() {
            match word.as_str() {
                "--long" => settings.long = true,
                "--minutes" => settings.minutes = Some(words.next()?.parse().ok()?),
                "--seed" => settings.seed = words.next()?.parse().ok()?,
                "--only" => settings.only = words.next()?,
                "--answers" => settings.answers = true,
                _ => return None,
            }
        }
        settings.long |= settings.minutes.is_some();
        Some(settings)
    }

    /// Whether the time asked for has passed.
    fn over(&self, began: Instant) -> bool {
        let asked = self.minutes.map(|minutes| minutes.saturating_mul(60));
        asked.is_some_and(|seconds| began.elapsed() >= Duration::from_secs(seconds))
    }
}

fn main() -> ExitCode {
    let Some(settings) = Settings::of(env::args().skip(1)) else {
        eprintln!("{USAGE}");
        return ExitCode::from(2);
    };
    let chosen = all().filter(|comparison| comparison.name.starts_with(&settings.only));
    let chosen: Vec<&Comparison> = chosen.collect();
    if chosen.is_empty() {
        eprintln!(
            "no comparison has a name that begins with {}",
            settings.only
        );
        return ExitCode::from(2);
    }
    match rounds(&settings, &chosen) {
        true => ExitCode::SUCCESS,
        false => ExitCode::FAILURE,
    }
}

/// One round, or round after round with a seed of its own each, until the time
/// is over; false at the first difference.
fn rounds(settings: &Settings, chosen: &[&Comparison]) -> bool {
    let began = Instant::now();
    if !chosen
        .iter()
        .all(|one| agrees(settings, one, settings.seed))
    {
        return false;
    }
    let drawn: Vec<_> = chosen.iter().filter(|one| one.drawn).collect();
    let mut seed = settings.seed;
    while settings.long && !drawn.is_empty() {
        seed = seed.wrapping_add(1);
        for one in &drawn {
            if settings.over(began) {
                return true;
            }
            if !agrees(settings, one, seed) {
                return false;
            }
        }
    }
    true
}

/// Runs one comparison and prints its line.
fn agrees(settings: &Settings, one: &Comparison, seed: u64) -> bool {
    let name = one.name;
    match one.course(seed) {
        Ok(course) => {
            println!("compare {name} cases {} seed {seed} ok", course.cases());
            if settings.answers {
                println!("{}", counted(&course));
            }
            true
        }
        Err(difference) => {
            println!("compare {name} seed {seed} differs");
            println!("{}", difference.0);
            false
        }
    }
}

/// The refusal numbers that were given, 0 for accepted, and how often.
fn counted(course: &Course) -> String {
    let given = course.answers().iter().enumerate();
    let given = given.filter(|(_, count)| **count > 0);
    given
        .map(|(number, count)| format!("  {number}: {count}"))
        .collect()
}
