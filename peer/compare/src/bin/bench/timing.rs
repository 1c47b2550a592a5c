//! Times two programs in turns, and prints the line.

use std::time::Instant;

/// Rounds that are timed, an odd number so that there is a middle one.
const ROUNDS: usize = 11;

/// A timed stretch is repeated until it lasts about so long.
const STRETCH_NS: f64 = 20e6;

/// Nanoseconds that one call of `work` takes, over so many.
fn timed(passes: usize, work: &mut dyn FnMut()) -> f64 {
    let began = Instant::now();
    for _ in 0..passes {
        work();
    }
    began.elapsed().as_nanos() as f64 / passes as f64
}

/// How many calls make a stretch.
fn passes(work: &mut dyn FnMut()) -> usize {
    let once = timed(1, work).min(timed(1, work)).max(1.0);
    (STRETCH_NS / once).ceil() as usize
}

fn median(mut times: Vec<f64>) -> f64 {
    times.sort_by(f64::total_cmp);
    times[times.len() / 2]
}

/// Times both in turns, the one that goes first changing from round to round,
/// and prints the line; `size` answers come out of one call.
pub fn line(name: &str, size: usize, ours: &mut dyn FnMut(), peer: &mut dyn FnMut()) {
    line_beside(name, size, ours, "peer", peer);
}

/// The same where what is timed beside ours has a name of its own.
pub fn line_beside(
    name: &str,
    size: usize,
    ours: &mut dyn FnMut(),
    other: &str,
    peer: &mut dyn FnMut(),
) {
    let (our_passes, peer_passes) = (passes(ours), passes(peer));
    let (mut our_times, mut peer_times) = (Vec::new(), Vec::new());
    for round in 0..ROUNDS {
        if round % 2 == 0 {
            our_times.push(timed(our_passes, ours));
        }
        peer_times.push(timed(peer_passes, peer));
        if round % 2 == 1 {
            our_times.push(timed(our_passes, ours));
        }
    }
    let (ours, peer) = (median(our_times), median(peer_times));
    let (each, peer_each) = (ours / size as f64, peer / size as f64);
    let ratio = ours / peer;
    let digits = if ratio < 0.1 { 6 } else { 3 };
    println!("bench {name} ours {each:.1} ns {other} {peer_each:.1} ns ratio {ratio:.digits$}");
}
