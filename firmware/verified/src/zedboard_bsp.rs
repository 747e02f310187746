// Made by tools/erase from crates/zedboard_bsp/src/lib.rt; a change belongs there.
//! The ZedBoard: its flash chip.

pub mod qspi_spansion;
