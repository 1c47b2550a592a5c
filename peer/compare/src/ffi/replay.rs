//! The replay, whose answer has a third number.

use peer::answer::Answer;
use peer::dispatch::Replayed;

use crate::lent::Lent;

/// A replay's answer as the first program hands it back, by value.
#[repr(C)]
struct CReplayed {
    refusal: u64,
    value: u64,
    used: u64,
}

impl From<CReplayed> for Replayed {
    fn from(replayed: CReplayed) -> Replayed {
        let CReplayed {
            refusal,
            value,
            used,
        } = replayed;
        let answer = Answer { refusal, value };
        Replayed { answer, used }
    }
}

// SAFETY: the archive's function with the types it is exported with.
unsafe extern "C" {
    fn gp_replay(state: *mut u64, n: usize, ticks: u32, log: *const u32, log_n: usize)
        -> CReplayed;
}

/// A replay of so many ticks on a saved state, with a log of job lengths.
#[inline]
pub fn replay(state: &mut [u64], ticks: u32, log: &[u32]) -> Replayed {
    let (place, length) = (state.as_mut_ptr(), state.len());
    // SAFETY: both pointers are aligned and never null; the log's numbers can be read
    // and the state's words written for the whole call; the state, being borrowed
    // mutably, overlaps nothing.
    unsafe { gp_replay(place, length, ticks, log.as_ptr(), log.len()) }.into()
}

/// [`replay`] on a state and a log whose surroundings are watched.
pub fn replay_lent(state: &mut Lent<u64>, ticks: u32, log: &mut Lent<u32>) -> Replayed {
    let (place, length) = (state.pointer(), state.len());
    let (numbers, count) = (log.pointer(), log.len());
    // SAFETY: both pointers are aligned and not null, they lead into two buffers, and
    // the whole of each is this call's alone.
    unsafe { gp_replay(place, length, ticks, numbers, count) }.into()
}
