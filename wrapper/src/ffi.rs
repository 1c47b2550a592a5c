//! The archive's functions over slices. All the `unsafe` of this package is here.
//!
//! What the archive asks of a caller, a Rust slice brings along: its pointer is aligned and not null, an empty one's too; its words
//! are initialised and as many as its length says; nobody writes them while it is borrowed, and nobody else even reads them while it
//! is borrowed mutably. Each function keeps nothing of what it was lent.

use crate::Refusal;

/// An answer as the archive hands it back, by value.
#[repr(C)]
struct Answer {
    refusal: u64,
    value: u64,
}

impl Answer {
    fn taken(self) -> Result<u64, Refusal> {
        match self.refusal {
            0 => Ok(self.value),
            number => Err(Refusal::numbered(number, self.value)),
        }
    }
}

/// A replay's answer as the archive hands it back, by value.
#[repr(C)]
struct Progress {
    refusal: u64,
    value: u64,
    used: u64,
}

impl Progress {
    /// Ticks done and numbers used.
    fn taken(self) -> Result<(u64, u64), Refusal> {
        match self.refusal {
            0 => Ok((self.value, self.used)),
            number => Err(Refusal::numbered(number, self.value)),
        }
    }
}

// SAFETY: these are the archive's functions with the types that they are exported with (include/galleypoppy.h). Those marked safe
// take and give numbers only.
unsafe extern "C" {
    safe fn gp_job(m: u32, k: u32, job: u32) -> Answer;
    safe fn gp_word(m: u32, k: u32) -> Answer;
    fn gp_check(words: *const u32, words_length: usize) -> Answer;
    fn gp_verdict(
        words: *const u32,
        words_length: usize,
        room: *mut u32,
        room_length: usize,
    ) -> Answer;
    fn gp_rooms(
        words: *const u32,
        words_length: usize,
        room: *mut u32,
        room_length: usize,
    ) -> Answer;
    fn gp_fresh(
        table: *const u32,
        table_length: usize,
        room: *mut u64,
        room_length: usize,
    ) -> Answer;
    fn gp_well(state: *const u64, state_length: usize) -> Answer;
    fn gp_tick(state: *mut u64, state_length: usize) -> Answer;
    fn gp_run(state: *mut u64, state_length: usize, n: u32) -> Answer;
    fn gp_replay(
        state: *mut u64,
        state_length: usize,
        n: u32,
        log: *const u32,
        log_length: usize,
    ) -> Progress;
    fn gp_counts(
        state: *const u64,
        state_length: usize,
        row: u32,
        room: *mut u64,
        room_length: usize,
    ) -> Answer;
    fn gp_held(state: *const u64, state_length: usize, row: u32) -> Answer;
    fn gp_read(text: *const u8, text_length: usize, room: *mut u32, room_length: usize) -> Answer;
    fn gp_write(
        words: *const u32,
        words_length: usize,
        room: *mut u8,
        room_length: usize,
    ) -> Answer;
    fn gp_to_new(text: *const u8, text_length: usize, room: *mut u8, room_length: usize) -> Answer;
    fn gp_to_old(text: *const u8, text_length: usize, room: *mut u8, room_length: usize) -> Answer;
    fn gp_report(
        input: *const u8,
        input_length: usize,
        room: *mut u8,
        room_length: usize,
    ) -> Answer;
}

pub fn job(m: u32, k: u32, job: u32) -> Result<u64, Refusal> {
    gp_job(m, k, job).taken()
}

pub fn word(m: u32, k: u32) -> Result<u64, Refusal> {
    gp_word(m, k).taken()
}

pub fn check(words: &[u32]) -> Result<u64, Refusal> {
    // SAFETY: the words are a slice, borrowed for the call.
    unsafe { gp_check(words.as_ptr(), words.len()) }.taken()
}

pub fn verdict(words: &[u32], room: &mut [u32]) -> Result<u64, Refusal> {
    // SAFETY: both are slices, borrowed for the call; the room, borrowed mutably, overlaps nothing.
    unsafe { gp_verdict(words.as_ptr(), words.len(), room.as_mut_ptr(), room.len()) }.taken()
}

pub fn rooms(words: &[u32], room: &mut [u32]) -> Result<u64, Refusal> {
    // SAFETY: both are slices, borrowed for the call; the room, borrowed mutably, overlaps nothing.
    unsafe { gp_rooms(words.as_ptr(), words.len(), room.as_mut_ptr(), room.len()) }.taken()
}

pub fn fresh(table: &[u32], room: &mut [u64]) -> Result<u64, Refusal> {
    // SAFETY: both are slices, borrowed for the call; the room, borrowed mutably, overlaps nothing.
    unsafe { gp_fresh(table.as_ptr(), table.len(), room.as_mut_ptr(), room.len()) }.taken()
}

pub fn well(state: &[u64]) -> Result<u64, Refusal> {
    // SAFETY: the state is a slice, borrowed for the call.
    unsafe { gp_well(state.as_ptr(), state.len()) }.taken()
}

pub fn tick(state: &mut [u64]) -> Result<u64, Refusal> {
    // SAFETY: the state is a slice, borrowed mutably for the call.
    unsafe { gp_tick(state.as_mut_ptr(), state.len()) }.taken()
}

pub fn run(state: &mut [u64], n: u32) -> Result<u64, Refusal> {
    // SAFETY: the state is a slice, borrowed mutably for the call.
    unsafe { gp_run(state.as_mut_ptr(), state.len(), n) }.taken()
}

pub fn replay(state: &mut [u64], n: u32, log: &[u32]) -> Result<(u64, u64), Refusal> {
    // SAFETY: both are slices, borrowed for the call; the state, borrowed mutably, overlaps nothing.
    unsafe { gp_replay(state.as_mut_ptr(), state.len(), n, log.as_ptr(), log.len()) }.taken()
}

pub fn counts(state: &[u64], row: u32, room: &mut [u64]) -> Result<u64, Refusal> {
    // SAFETY: both are slices, borrowed for the call; the room, borrowed mutably, overlaps nothing.
    unsafe {
        gp_counts(
            state.as_ptr(),
            state.len(),
            row,
            room.as_mut_ptr(),
            room.len(),
        )
    }
    .taken()
}

pub fn held(state: &[u64], row: u32) -> Result<u64, Refusal> {
    // SAFETY: the state is a slice, borrowed for the call.
    unsafe { gp_held(state.as_ptr(), state.len(), row) }.taken()
}

pub fn read(text: &[u8], room: &mut [u32]) -> Result<u64, Refusal> {
    // SAFETY: both are slices, borrowed for the call; the room, borrowed mutably, overlaps nothing.
    unsafe { gp_read(text.as_ptr(), text.len(), room.as_mut_ptr(), room.len()) }.taken()
}

pub fn write(words: &[u32], room: &mut [u8]) -> Result<u64, Refusal> {
    // SAFETY: both are slices, borrowed for the call; the room, borrowed mutably, overlaps nothing.
    unsafe { gp_write(words.as_ptr(), words.len(), room.as_mut_ptr(), room.len()) }.taken()
}

pub fn to_new(text: &[u8], room: &mut [u8]) -> Result<u64, Refusal> {
    // SAFETY: both are slices, borrowed for the call; the room, borrowed mutably, overlaps nothing.
    unsafe { gp_to_new(text.as_ptr(), text.len(), room.as_mut_ptr(), room.len()) }.taken()
}

pub fn to_old(text: &[u8], room: &mut [u8]) -> Result<u64, Refusal> {
    // SAFETY: both are slices, borrowed for the call; the room, borrowed mutably, overlaps nothing.
    unsafe { gp_to_old(text.as_ptr(), text.len(), room.as_mut_ptr(), room.len()) }.taken()
}

pub fn report(input: &[u8], room: &mut [u8]) -> Result<u64, Refusal> {
    // SAFETY: both are slices, borrowed for the call; the room, borrowed mutably, overlaps nothing.
    unsafe { gp_report(input.as_ptr(), input.len(), room.as_mut_ptr(), room.len()) }.taken()
}
