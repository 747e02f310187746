// Made by tools/erase from crates/zynq7000_hal/src/lib.rt; a change belongs there.
//! The Zynq-7000 QSPI controller: clocks, linear mode presets, the words of its set-up.

pub mod clocks;
pub mod qspi;
