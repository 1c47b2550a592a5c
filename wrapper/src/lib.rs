//! Galleypoppy for firmware in Rust: patterns, verdict, dispatcher and task text of the music stand's scheduler.
//!
//! The work is done by the functions of `crates/stand_c`, each proved to give the answer that document 01 names (spare: document
//! 02, 1/14; the stored number of met marks: 2/14; the two patterns: 3/14; old texts carried over and back: 4/14; a replay with
//! measured job lengths: 5/14; the room of a row: 7/14) on every input. This package lends them slices, so that what a caller in C
//! owes (true lengths, alignment, no overlap) is kept by the types. It does not allocate, it does not panic, and all its `unsafe`
//! is in one module.
//!
//! A refused call alters nothing that was lent. An accepted one alters only the part of the room that its answer fills, from the
//! start, and gives back that part.
//!
//! ```
//! use galleypoppy::{read, rooms, verdict, Refusal, State, ROWS_MAX, TABLE_WORDS};
//!
//! # fn main() -> Result<(), Refusal> {
//! let text = b"rows=2\nid=11\nc=2\nt=4\nd=4\nm=1\nk=2\np=0\nid=12\nc=4\nt=6\nd=6\nm=2\nk=3\np=0\n";
//! let mut words = [0; TABLE_WORDS];
//! let table = read(text, &mut words)?;
//! assert_eq!(verdict(table, &mut [0; ROWS_MAX])?, [2, 6]);
//! assert_eq!(rooms(table, &mut [0; ROWS_MAX])?, [4, 4]);
//!
//! let mut state = State::fresh(table)?;
//! state.run(24)?;
//! assert_eq!((state.time(), state.idle()), (24, 0));
//! # Ok(())
//! # }
//! ```
//!
//! Stack, in the archive: [`report`] takes 13,288 bytes and [`replay`], with a copy of the state, 5,596; the others less,
//! as the C header says. A [`State`] is 5,144 bytes.
#![no_std]
#![deny(missing_docs)]
#![deny(unsafe_op_in_unsafe_fn)]

mod ffi;
mod pattern;
mod refusal;
mod saved;
mod state;
mod table;
mod text;

pub use pattern::{job, word, Kind, Pattern};
pub use refusal::Refusal;
pub use saved::{counts, fresh, held, replay, run, tick, well};
pub use saved::{Counts, Replayed, COUNT_WORDS, STATE_WORDS};
pub use state::{Field, State};
pub use table::{check, rooms, verdict, ROWS_MAX, TABLE_WORDS, TASK_WORDS};
pub use text::{read, report, to_new, to_old, write, OLD_TEXT_BYTES, REPORT_BYTES, TEXT_BYTES};

/// The first words of a room, which an answer has filled. The archive never fills more words than there are.
fn filled<T>(room: &[T], length: usize) -> &[T] {
    room.get(..length).unwrap_or_default()
}
