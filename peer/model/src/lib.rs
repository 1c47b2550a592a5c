//! The second program: the rules of document 01, and of document 02 what has
//! been taken up (1/14 to 7/14), written from those documents alone, so that its
//! answers can be laid beside the first program's.
//!
//! Everything here is total. Each function gives an answer on every input and
//! none of them panics; what the document refuses comes back as a refusal
//! number in an [`answer::Answer`].
#![forbid(unsafe_code)]

pub mod answer;
pub mod brute;
pub mod convert;
pub mod counts;
pub mod dispatch;
pub mod gen;
pub mod pattern;
pub mod promise;
pub mod report;
pub mod rng;
pub mod rooms;
pub mod table;
pub mod text;
pub mod vectors;
pub mod verdict;
