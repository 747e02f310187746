// Made by tools/erase from crates/zynq7000/src/lib.rt; a change belongs there.
//! Registers of the Zynq-7000: the QSPI block and the clock control word that belongs to it.

pub mod bits;
pub mod qspi;
pub mod slcr;
