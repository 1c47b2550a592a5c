//! Replays with full-length logs, against the second program's two, against the first
//! program's own run and tick, and refused by the last number of a long log.

use std::hint::black_box;

use compare::ffi;
use peer::brute::replay::releases;
use peer::dispatch::{from_words, replay, replay_plain, to_words, Replayed, State};
use peer::rng::Rng;

use super::states::underway_of;
use super::tables::{begun, busy_tables, Saved, TABLES, TICKS};
use super::timing::{line, line_beside};

type Replay = fn(&mut State, u32, &[u32]) -> Replayed;

/// Replays of a single tick, for each of the tables.
const SINGLE: usize = 200;

/// Ticks of the runs that are timed.
const SIZE: usize = TABLES * TICKS as usize;

/// States to begin in, each with a number of C for every job of so many ticks.
struct Logged {
    starts: Vec<Saved>,
    logs: Vec<Vec<u32>>,
}

impl Logged {
    fn new(starts: Vec<Saved>, ticks: u32) -> Logged {
        let log = |words: &Saved| {
            let jobs = releases(words, ticks, usize::MAX);
            jobs.iter().map(|job| job.c).collect()
        };
        let logs = starts.iter().map(log).collect();
        Logged { starts, logs }
    }

    /// The states in the second program's own form.
    fn own(&self) -> Option<Vec<State>> {
        self.starts.iter().map(|words| from_words(words)).collect()
    }

    /// The same with the last number of every log out of its range.
    fn with_last_wrong(&self) -> Logged {
        let mut logs = self.logs.clone();
        for number in logs.iter_mut().filter_map(|log| log.last_mut()) {
            *number = u32::MAX;
        }
        let starts = self.starts.clone();
        Logged { starts, logs }
    }
}

/// Every line for tables of 2, 8 and 32 rows. A copy draws for them, so that the table of
/// the long run stays as it is.
pub fn all(rng: &Rng) -> bool {
    [2, 8, 32]
        .into_iter()
        .all(|rows| replays(&mut rng.clone(), rows))
}

/// Every line for tables of so many rows.
fn replays(rng: &mut Rng, rows: usize) -> bool {
    let tables = busy_tables(rng, rows);
    let logged = Logged::new(begun(&tables), TICKS);
    let peers: [(&str, Replay); 2] = [("plain", replay_plain), ("bitsets", replay)];
    let alike = peers.into_iter().all(|(how, peer)| {
        timed(&format!("replay_{rows}_rows_{how}"), &logged, peer)
            && refused(
                &format!("replay_{rows}_rows_refused_last_{how}"),
                &logged,
                peer,
            )
    });
    alike
        && beside_run(&format!("replay_{rows}_rows_beside_run"), &logged)
        && beside_tick(&format!("replay_{rows}_rows_one_tick"), &tables)
}

/// Ours from the starts: the states copied, and a replay of each.
fn ours(states: &mut [Saved], logged: &Logged) {
    states.copy_from_slice(black_box(&logged.starts));
    for (state, log) in states.iter_mut().zip(&logged.logs) {
        black_box(ffi::replay(state, TICKS, log));
    }
}

/// The second program's from the same.
fn theirs(states: &mut [State], (starts, logs): (&[State], &[Vec<u32>]), peer: Replay) {
    states.clone_from_slice(black_box(starts));
    for (state, log) in states.iter_mut().zip(logs) {
        black_box(peer(state, TICKS, log));
    }
}

/// Times both, a tick each; gives the states they end in.
fn timed_both(name: &str, logged: &Logged, peer: Replay) -> Option<(Vec<Saved>, Vec<State>)> {
    let Some(starts) = logged.own() else {
        println!("bench {name} no states");
        return None;
    };
    let (mut states, mut peer_states) = (logged.starts.clone(), starts.clone());
    let mut first = || ours(&mut states, logged);
    let mut second = || theirs(&mut peer_states, (&starts, &logged.logs), peer);
    line(name, SIZE, &mut first, &mut second);
    Some((states, peer_states))
}

/// Ticks of a replay from fresh, and the states that they end in.
fn timed(name: &str, logged: &Logged, peer: Replay) -> bool {
    let Some((states, peer_states)) = timed_both(name, logged, peer) else {
        return false;
    };
    let ended = |(state, peer): (&Saved, &State)| peer.time == TICKS && *state == to_words(peer);
    let alike = states.iter().zip(&peer_states).all(ended);
    if !alike {
        println!("bench {name} states {states:?} peer {peer_states:?}");
    }
    alike
}

/// The same where the last number is refused: the time is given for each tick that was
/// asked for, and the states are those of the start.
fn refused(name: &str, logged: &Logged, peer: Replay) -> bool {
    let logged = logged.with_last_wrong();
    let cases = logged.starts.iter().zip(&logged.logs);
    for (start, log) in cases {
        let (mut state, own) = (*start, from_words(start));
        let ours = ffi::replay(&mut state, TICKS, log);
        let theirs = own.map(|mut own| peer(&mut own, TICKS, log));
        let place = log.len() as u64 - 1;
        let told = (ours.answer.refusal, ours.answer.value) == (18, place);
        if !told || Some(ours) != theirs || state != *start {
            println!("bench {name} ours {ours:?} peer {theirs:?}");
            return false;
        }
    }
    timed_both(name, &logged, peer).is_some()
}

/// Ours against our plain run of as many ticks, from the same states.
fn beside_run(name: &str, logged: &Logged) -> bool {
    let (mut states, mut run) = (logged.starts.clone(), logged.starts.clone());
    let mut replay = || ours(&mut states, logged);
    let mut plain = || {
        run.copy_from_slice(black_box(&logged.starts));
        for state in &mut run {
            black_box(ffi::run(state, TICKS));
        }
    };
    line_beside(name, SIZE, &mut replay, "gp_run", &mut plain);
    let alike = states == run;
    if !alike {
        println!("bench {name} replay {states:?} run {run:?}");
    }
    alike
}

/// Ours of a single tick, with what is left of the log, against our tick.
fn beside_tick(name: &str, tables: &[Vec<u32>]) -> bool {
    let logged = Logged::new(underway_of(tables), SINGLE as u32);
    let (mut states, mut ticked) = (logged.starts.clone(), logged.starts.clone());
    let mut replay = || {
        states.copy_from_slice(black_box(&logged.starts));
        for (state, log) in states.iter_mut().zip(&logged.logs) {
            let mut rest = &log[..];
            for _ in 0..SINGLE {
                let replayed = black_box(ffi::replay(state, 1, rest));
                rest = rest.get(replayed.used as usize..).unwrap_or_default();
            }
        }
    };
    let mut tick = || {
        ticked.copy_from_slice(black_box(&logged.starts));
        for state in &mut ticked {
            for _ in 0..SINGLE {
                black_box(ffi::tick(state));
            }
        }
    };
    line_beside(name, TABLES * SINGLE, &mut replay, "gp_tick", &mut tick);
    let alike = states == ticked;
    if !alike {
        println!("bench {name} replay {states:?} tick {ticked:?}");
    }
    alike
}
