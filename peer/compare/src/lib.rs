//! The comparisons: the first program's answers, asked for through its C
//! functions, laid beside those of the second program, package `peer`.
//!
//! A part is added in three steps: its functions go into [`ffi`], a module with
//! its comparisons goes under [`compare`], and that module's list joins
//! [`compare::all`].
#![deny(unsafe_code)]

pub mod compare;
pub mod course;
pub mod draw;
pub mod ffi;
pub mod lent;
pub mod place;
pub mod process;
