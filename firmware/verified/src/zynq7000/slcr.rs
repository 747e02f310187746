// Made by tools/erase from crates/zynq7000/src/slcr.rt; a change belongs there.
//! System level control registers: only the words that belong to the QSPI block.

pub mod clocks;
