//! Replays the stored list of calls through the erased package and writes the lines of `crates/oracle_cases/stdout`.
//! Needs no heap: the caller lends the memory of a case. [ways] has the calls for others who compare.
#![no_std]
#![forbid(unsafe_code)]

pub mod call;
mod codes;
mod line;
mod list;
mod record;
pub mod ways;

pub use list::{Memory, replay};
