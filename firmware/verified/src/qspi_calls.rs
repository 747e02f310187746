// Made by tools/erase from crates/qspi_calls/src/lib.rt; a change belongs there.
//! The calls of documents 01 and 02: how each one starts, and what it hands back at its end. What each one does is
//! said over lists in specs/Calls, and proofs/ ties every start to its script there.

pub mod run;
pub mod sectors;
pub mod start;
