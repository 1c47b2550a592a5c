//! The question about one job, and the one about a pair's word. The second program's are
//! called, not inlined, so that both pay for one call.

use std::hint::black_box;

use compare::ffi;
use peer::answer::Answer;
use peer::pattern;
use peer::rng::Rng;

use super::timing::line;

/// Questions about one job in a stretch.
const QUESTIONS: usize = 1 << 14;

/// m, k and a job number.
type Question = (u32, u32, u32);

#[inline(never)]
fn peer_job(m: u32, k: u32, job: u32) -> Answer {
    pattern::job(m, k, job)
}

#[inline(never)]
fn peer_job_by_remainder(m: u32, k: u32, job: u32) -> Answer {
    pattern::job_by_remainder(m, k, job)
}

#[inline(never)]
fn peer_word(m: u32, k: u32) -> Answer {
    pattern::asked(m, k, || pattern::entry(m, k))
}

/// Every pair alike and any job number: the question about one job, against the second
/// program's floor and ceiling and against its one remainder, and the pair's word.
pub fn jobs(rng: &mut Rng) -> bool {
    let draw = |_| {
        let k = rng.word(1, 64);
        (rng.word(1, k), k, rng.word(0, u32::MAX))
    };
    let questions: Vec<Question> = (0..QUESTIONS).map(draw).collect();
    if !questions.iter().all(alike) {
        return false;
    }
    let mut ours = || ask(&questions, ffi::job);
    let mut peer = || ask(&questions, peer_job);
    line("job", QUESTIONS, &mut ours, &mut peer);
    let mut peer = || ask(&questions, peer_job_by_remainder);
    line("job_remainder", QUESTIONS, &mut ours, &mut peer);
    let mut ours = || ask(&questions, |m, k, _| ffi::word(m, k));
    let mut peer = || ask(&questions, |m, k, _| peer_word(m, k));
    line("word", QUESTIONS, &mut ours, &mut peer);
    true
}

/// Whether the answers to all that is timed are the same.
fn alike(&(m, k, job): &Question) -> bool {
    let (ours, peer) = (ffi::job(m, k, job), peer_job(m, k, job));
    let short = peer_job_by_remainder(m, k, job);
    let (word, peer_word) = (ffi::word(m, k), peer_word(m, k));
    let alike = ours == peer && ours == short && word == peer_word;
    if !alike {
        println!("bench job m {m} k {k} job {job} ours {ours:?} peer {peer:?} {short:?}");
        println!("bench word m {m} k {k} ours {word:?} peer {peer_word:?}");
    }
    alike
}

/// A copy for each of the questions, so that none is called by a pointer.
fn ask(questions: &[Question], one: impl Fn(u32, u32, u32) -> Answer) {
    for &(m, k, job) in black_box(questions) {
        black_box(one(m, k, job));
    }
}
