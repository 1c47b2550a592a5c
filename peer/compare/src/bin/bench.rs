//! Times both programs on the same inputs, in turns, within one run. Each line
//! has the median of the rounds; the ratio is the first program's time divided
//! by the second's. Status 1 if they do not answer alike.
//!
//! `--slow` adds two runs of the first program: 100,000,000 ticks, and from time 0
//! to the clock's end.

#[path = "bench/fresh.rs"]
mod fresh;
#[path = "bench/held.rs"]
mod held;
#[path = "bench/jobs.rs"]
mod jobs;
#[path = "bench/printing.rs"]
mod printing;
#[path = "bench/red.rs"]
mod red;
#[path = "bench/replays.rs"]
mod replays;
#[path = "bench/slow.rs"]
mod slow;
#[path = "bench/states.rs"]
mod states;
#[path = "bench/tables.rs"]
mod tables;
#[path = "bench/texts.rs"]
mod texts;
#[path = "bench/ticks.rs"]
mod ticks;
#[path = "bench/timing.rs"]
mod timing;
#[path = "bench/verdicts.rs"]
mod verdicts;

use std::env;
use std::process::ExitCode;

use peer::rng::Rng;

const SEED: u64 = 1;

fn main() -> ExitCode {
    let words: Vec<String> = env::args().skip(1).collect();
    let slow = match words.as_slice() {
        [] => false,
        [word] if word == "--slow" => true,
        _ => {
            eprintln!("usage: bench [--slow]");
            return ExitCode::from(2);
        }
    };
    let mut rng = Rng::new(SEED);
    let mut alike = jobs::jobs(&mut rng);
    for rows in [4, 16, 32] {
        for d_max in [2_000, 65_535] {
            alike &= verdicts::verdicts(&mut rng, rows, d_max);
        }
    }
    alike &= red::verdicts(&rng);
    alike &= verdicts::far_apart(&rng);
    for rows in [2, 8, 32] {
        alike &= ticks::ticks(&mut rng, rows);
    }
    alike &= fresh::fresh(&mut rng) && fresh::well(&mut rng);
    alike &= texts::read_longest() && texts::write_longest();
    alike &= texts::carry_longest();
    for rows in [2, 8, 32] {
        alike &= states::single_ticks(&mut rng, rows);
    }
    alike &= states::counts(&mut rng);
    // A copy draws for these lines, so that the table of the long run stays as it is.
    alike &= states::counts_k_64(&mut rng.clone());
    alike &= held::all(&mut rng.clone());
    alike &= replays::all(&rng);
    alike &= printing::all();
    alike &= !slow || slow::long_run(&mut rng) && slow::clocks_end();
    match alike {
        true => ExitCode::SUCCESS,
        false => ExitCode::FAILURE,
    }
}
