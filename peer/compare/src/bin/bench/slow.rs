//! Two long runs of the first program alone: of one hundred million ticks, and to the
//! clock's end.

use std::time::Instant;

use compare::ffi;
use peer::answer::{refusal, Answer};
use peer::dispatch::{run_words, to_words, Row, State, CLOCK_END};
use peer::pattern::Pattern;
use peer::rng::Rng;
use peer::table::ROWS_MAX;

use super::tables::{begun, busy_tables, Saved, ROWS};

/// Ticks of the long run.
const LONG_TICKS: u32 = 100_000_000;

/// The row that is run to the clock's end: id, C, T, D, m, k, p.
const END_ROW: [u32; 7] = [1, 5, 7, 6, 3, 5, 0];

/// One long run of the first program. The second one makes it as well, untimed,
/// and the states are compared.
pub fn long_run(rng: &mut Rng) -> bool {
    let starts = begun(&busy_tables(rng, ROWS));
    let (mut ours, mut peer) = (starts[0], starts[0]);
    let began = Instant::now();
    let answer = ffi::run(&mut ours, LONG_TICKS);
    let seconds = began.elapsed().as_secs_f64();
    println!("bench run_100_million_ticks ours {seconds:.2} s");
    let ran = answer.is_accepted() && answer == run_words(&mut peer, LONG_TICKS);
    let alike = ran && ours == peer;
    if !alike {
        println!("bench run_100_million_ticks {answer:?} {ours:?} peer {peer:?}");
    }
    alike
}

/// The state of one row alone at the clock's end. Each job of it has the processor
/// from its release on, so every job is met after C ticks; the last is released so
/// near the end that it is still live.
fn at_clocks_end() -> Saved {
    let [id, c, t, d, m, k, p] = END_ROW;
    let (settled, past) = (CLOCK_END / t, CLOCK_END % t);
    let pattern = Pattern { m, k, p };
    let mandatory = pattern.count(settled) as u32;
    let mut row = [Row::default(); ROWS_MAX];
    row[0] = Row {
        id,
        c,
        t,
        d,
        m,
        k,
        p,
        wait: t - past,
        place: (settled + 1) % k,
        work: c - past,
        left: d - past,
        kind: u32::from(pattern.is_mandatory(settled)),
        window: (1 << k) - 1,
        held: k,
        released: settled + 1,
        mm: mandatory,
        om: settled - mandatory,
        ..Row::default()
    };
    to_words(&State {
        rows: 1,
        time: CLOCK_END,
        idle: settled * (t - c),
        row,
    })
}

/// From time 0 to the clock's end in one call, the state there, and no tick more.
pub fn clocks_end() -> bool {
    let mut state = begun(&[END_ROW.to_vec()])[0];
    let began = Instant::now();
    let answer = ffi::run(&mut state, CLOCK_END);
    let seconds = began.elapsed().as_secs_f64();
    println!("bench run_to_clocks_end_1_row ours {seconds:.2} s");
    let expected = at_clocks_end();
    let ran = answer == Answer::accepted(0) && state == expected;
    let further = [ffi::tick(&mut state), ffi::run(&mut state, 1)];
    let ended = further == [Answer::refused(refusal::CLOCK); 2] && state == expected;
    if !ran || !ended {
        println!("bench run_to_clocks_end_1_row {answer:?} {state:?}, due {expected:?}");
    }
    ran && ended
}
