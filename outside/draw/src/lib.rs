//! Calls with everything they are given, drawn where mistakes are likely to be,
//! and their text form, in which each can be made again.
//!
//! The comparison with the second interpreter and the one with the witness draw
//! from here.

#![forbid(unsafe_code)]

pub mod aim;
pub mod case;
pub mod chance;
pub mod image;
