//! The first program's C functions. All the `unsafe` of this package is here.
#![allow(unsafe_code)]

mod replay;

pub use replay::{replay, replay_lent};

use peer::answer::Answer;
use peer::convert::Way;

use crate::lent::Lent;

/// An answer as the first program hands it back, by value.
#[repr(C)]
struct CAnswer {
    refusal: u64,
    value: u64,
}

impl From<CAnswer> for Answer {
    fn from(answer: CAnswer) -> Answer {
        let CAnswer { refusal, value } = answer;
        Answer { refusal, value }
    }
}

// SAFETY: these are the archive's functions with the types they are exported
// with. Those marked safe take and give numbers only.
unsafe extern "C" {
    safe fn gp_job(m: u32, k: u32, job: u32) -> CAnswer;
    safe fn gp_word(m: u32, k: u32) -> CAnswer;
    fn gp_check(words: *const u32, n: usize) -> CAnswer;
    fn gp_verdict(words: *const u32, n: usize, room: *mut u32, room_n: usize) -> CAnswer;
    fn gp_rooms(words: *const u32, n: usize, room: *mut u32, room_n: usize) -> CAnswer;
    fn gp_fresh(table: *const u32, n: usize, room: *mut u64, room_n: usize) -> CAnswer;
    fn gp_well(state: *const u64, n: usize) -> CAnswer;
    fn gp_tick(state: *mut u64, n: usize) -> CAnswer;
    fn gp_run(state: *mut u64, n: usize, ticks: u32) -> CAnswer;
    fn gp_counts(state: *const u64, n: usize, row: u32, room: *mut u64, room_n: usize) -> CAnswer;
    fn gp_held(state: *const u64, n: usize, row: u32) -> CAnswer;
    fn gp_read(text: *const u8, n: usize, room: *mut u32, room_n: usize) -> CAnswer;
    fn gp_write(words: *const u32, n: usize, room: *mut u8, room_n: usize) -> CAnswer;
    fn gp_report(input: *const u8, n: usize, room: *mut u8, room_n: usize) -> CAnswer;
    fn gp_to_new(text: *const u8, n: usize, room: *mut u8, room_n: usize) -> CAnswer;
    fn gp_to_old(text: *const u8, n: usize, room: *mut u8, room_n: usize) -> CAnswer;
}

/// "A question about one job takes m, k and any 32-bit job number."
#[inline]
pub fn job(m: u32, k: u32, job: u32) -> Answer {
    gp_job(m, k, job).into()
}

/// The pair's word in the pattern book.
#[inline]
pub fn word(m: u32, k: u32) -> Answer {
    gp_word(m, k).into()
}

/// Whether the words are a well-formed table.
#[inline]
pub fn check(words: &[u32]) -> Answer {
    // SAFETY: a slice's pointer is aligned and never null, and its words can be
    // read for the whole call.
    unsafe { gp_check(words.as_ptr(), words.len()) }.into()
}

/// The verdict on a table, its response times written to the room.
#[inline]
pub fn verdict(words: &[u32], room: &mut [u32]) -> Answer {
    let (place, length) = (room.as_mut_ptr(), room.len());
    // SAFETY: both pointers are aligned and never null; the table's words can be
    // read and the room's written for the whole call; the room, being borrowed
    // mutably, overlaps nothing.
    unsafe { gp_verdict(words.as_ptr(), words.len(), place, length) }.into()
}

/// The rooms of a table's rows, written to the lent room.
#[inline]
pub fn rooms(words: &[u32], room: &mut [u32]) -> Answer {
    let (place, length) = (room.as_mut_ptr(), room.len());
    // SAFETY: as in [`verdict`].
    unsafe { gp_rooms(words.as_ptr(), words.len(), place, length) }.into()
}

/// The fresh state of a table, laid into the first 643 words of the room.
#[inline]
pub fn fresh(table: &[u32], room: &mut [u64]) -> Answer {
    let (place, length) = (room.as_mut_ptr(), room.len());
    // SAFETY: as in [`verdict`].
    unsafe { gp_fresh(table.as_ptr(), table.len(), place, length) }.into()
}

/// Whether the words are a well-formed state.
#[inline]
pub fn well(state: &[u64]) -> Answer {
    // SAFETY: as in [`check`].
    unsafe { gp_well(state.as_ptr(), state.len()) }.into()
}

/// One tick on a saved state.
#[inline]
pub fn tick(state: &mut [u64]) -> Answer {
    // SAFETY: a slice's pointer is aligned and never null, and its words, being
    // borrowed mutably, are this call's alone.
    unsafe { gp_tick(state.as_mut_ptr(), state.len()) }.into()
}

/// A run of so many ticks on a saved state.
#[inline]
pub fn run(state: &mut [u64], ticks: u32) -> Answer {
    // SAFETY: as in [`tick`].
    unsafe { gp_run(state.as_mut_ptr(), state.len(), ticks) }.into()
}

/// The counts of one row of a saved state, in the first seven words of the room.
#[inline]
pub fn counts(state: &[u64], row: u32, room: &mut [u64]) -> Answer {
    let (place, length) = (room.as_mut_ptr(), room.len());
    // SAFETY: as in [`verdict`], with a state for the table.
    unsafe { gp_counts(state.as_ptr(), state.len(), row, place, length) }.into()
}

/// The number of met marks of one row of a saved state, as it is stored.
#[inline]
pub fn held(state: &[u64], row: u32) -> Answer {
    // SAFETY: as in [`check`].
    unsafe { gp_held(state.as_ptr(), state.len(), row) }.into()
}

/// The table of a task text, its words written to the room.
#[inline]
pub fn read(text: &[u8], room: &mut [u32]) -> Answer {
    let (place, length) = (room.as_mut_ptr(), room.len());
    // SAFETY: as in [`verdict`], with bytes for the table's words.
    unsafe { gp_read(text.as_ptr(), text.len(), place, length) }.into()
}

/// The task text of a table, its bytes written to the room.
#[inline]
pub fn write(words: &[u32], room: &mut [u8]) -> Answer {
    let (place, length) = (room.as_mut_ptr(), room.len());
    // SAFETY: as in [`verdict`], with bytes for the room's words.
    unsafe { gp_write(words.as_ptr(), words.len(), place, length) }.into()
}

/// What the printing program prints for an input, its bytes written to the room.
#[inline]
pub fn report(input: &[u8], room: &mut [u8]) -> Answer {
    let (place, length) = (room.as_mut_ptr(), room.len());
    // SAFETY: as in [`verdict`], with bytes for both.
    unsafe { gp_report(input.as_ptr(), input.len(), place, length) }.into()
}

/// A task text carried from one form to the other, its bytes written to the room.
#[inline]
pub fn convert(way: Way, text: &[u8], room: &mut [u8]) -> Answer {
    let (place, length) = (room.as_mut_ptr(), room.len());
    let carry = carrier(way);
    // SAFETY: as in [`verdict`], with bytes for both.
    unsafe { carry(text.as_ptr(), text.len(), place, length) }.into()
}

/// The function for a way.
#[inline]
fn carrier(way: Way) -> unsafe extern "C" fn(*const u8, usize, *mut u8, usize) -> CAnswer {
    match way {
        Way::ToNew => gp_to_new,
        Way::ToOld => gp_to_old,
    }
}

/// [`check`] on words whose surroundings are watched.
///
/// A shared slice would let the compiler take it that the words stay as they
/// are; a [`Lent`] does not, so a table altered in the call is seen.
pub fn check_lent(words: &mut Lent<u32>) -> Answer {
    let (place, length) = (words.pointer(), words.len());
    // SAFETY: the pointer is aligned and not null, and the whole of the lent
    // buffer, the words on both sides included, is this call's alone.
    unsafe { gp_check(place, length) }.into()
}

/// [`verdict`] on a table and a room whose surroundings are watched.
pub fn verdict_lent(words: &mut Lent<u32>, room: &mut Lent<u32>) -> Answer {
    let (table, table_length) = (words.pointer(), words.len());
    let (place, length) = (room.pointer(), room.len());
    // SAFETY: both pointers are aligned and not null, they lead into two
    // buffers, and the whole of each is this call's alone.
    unsafe { gp_verdict(table, table_length, place, length) }.into()
}

/// [`rooms`] on a table and a room whose surroundings are watched.
pub fn rooms_lent(words: &mut Lent<u32>, room: &mut Lent<u32>) -> Answer {
    let (table, table_length) = (words.pointer(), words.len());
    let (place, length) = (room.pointer(), room.len());
    // SAFETY: as in [`verdict_lent`].
    unsafe { gp_rooms(table, table_length, place, length) }.into()
}

/// [`fresh`] on a table and a room whose surroundings are watched.
pub fn fresh_lent(table: &mut Lent<u32>, room: &mut Lent<u64>) -> Answer {
    let (words, words_length) = (table.pointer(), table.len());
    let (place, length) = (room.pointer(), room.len());
    // SAFETY: as in [`verdict_lent`].
    unsafe { gp_fresh(words, words_length, place, length) }.into()
}

/// [`well`] on words whose surroundings are watched.
pub fn well_lent(state: &mut Lent<u64>) -> Answer {
    let (place, length) = (state.pointer(), state.len());
    // SAFETY: as in [`check_lent`].
    unsafe { gp_well(place, length) }.into()
}

/// [`tick`] on words whose surroundings are watched.
pub fn tick_lent(state: &mut Lent<u64>) -> Answer {
    let (place, length) = (state.pointer(), state.len());
    // SAFETY: as in [`check_lent`].
    unsafe { gp_tick(place, length) }.into()
}

/// [`run`] on words whose surroundings are watched.
pub fn run_lent(state: &mut Lent<u64>, ticks: u32) -> Answer {
    let (place, length) = (state.pointer(), state.len());
    // SAFETY: as in [`check_lent`].
    unsafe { gp_run(place, length, ticks) }.into()
}

/// [`counts`] on a state and a room whose surroundings are watched.
pub fn counts_lent(state: &mut Lent<u64>, row: u32, room: &mut Lent<u64>) -> Answer {
    let (words, words_length) = (state.pointer(), state.len());
    let (place, length) = (room.pointer(), room.len());
    // SAFETY: as in [`verdict_lent`].
    unsafe { gp_counts(words, words_length, row, place, length) }.into()
}

/// [`held`] on words whose surroundings are watched.
pub fn held_lent(state: &mut Lent<u64>, row: u32) -> Answer {
    let (place, length) = (state.pointer(), state.len());
    // SAFETY: as in [`check_lent`].
    unsafe { gp_held(place, length, row) }.into()
}

/// [`read`] on a text and a room whose surroundings are watched.
pub fn read_lent(text: &mut Lent<u8>, room: &mut Lent<u32>) -> Answer {
    let (bytes, bytes_length) = (text.pointer(), text.len());
    let (place, length) = (room.pointer(), room.len());
    // SAFETY: as in [`verdict_lent`].
    unsafe { gp_read(bytes, bytes_length, place, length) }.into()
}

/// [`write`] on a table and a room whose surroundings are watched.
pub fn write_lent(words: &mut Lent<u32>, room: &mut Lent<u8>) -> Answer {
    let (table, table_length) = (words.pointer(), words.len());
    let (place, length) = (room.pointer(), room.len());
    // SAFETY: as in [`verdict_lent`].
    unsafe { gp_write(table, table_length, place, length) }.into()
}

/// [`report`] on an input and a room whose surroundings are watched.
pub fn report_lent(input: &mut Lent<u8>, room: &mut Lent<u8>) -> Answer {
    let (bytes, bytes_length) = (input.pointer(), input.len());
    let (place, length) = (room.pointer(), room.len());
    // SAFETY: as in [`verdict_lent`].
    unsafe { gp_report(bytes, bytes_length, place, length) }.into()
}

/// [`convert`] on a text and a room whose surroundings are watched.
pub fn convert_lent(way: Way, text: &mut Lent<u8>, room: &mut Lent<u8>) -> Answer {
    let (bytes, bytes_length) = (text.pointer(), text.len());
    let (place, length) = (room.pointer(), room.len());
    let carry = carrier(way);
    // SAFETY: as in [`verdict_lent`].
    unsafe { carry(bytes, bytes_length, place, length) }.into()
}
