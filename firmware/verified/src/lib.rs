// Made by tools/erase from crates.txt; a change belongs there.
//! A driver for the S25FL256S flash on the Zynq-7000's QSPI controller: the proved source of the port, with its contracts erased.
//!
//! Each module is a crate of the port. README.md says what is proved of it and what is not.
#![no_std]
#![forbid(unsafe_code)]

pub mod power_cut;
pub mod qspi_calls;
pub mod qspi_driver;
pub mod qspi_operation;
pub mod qspi_script;
pub mod qspi_transfer;
pub mod zedboard_bsp;
pub mod zynq7000;
pub mod zynq7000_hal;

#[cfg(doctest)]
#[doc = include_str!("../README.md")]
struct Readme;
