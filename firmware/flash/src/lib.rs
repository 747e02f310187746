//! The S25FL256S flash of a Zynq-7000 board as ordinary methods. Each call asks the proved driver (package `verified`) which
//! register access is due, makes it on a [Bus], hands the reply back, and goes on so until the call has ended.
//!
//! This package is not proved: it is the loop around the driver, the way to the registers ([Registers], the only `unsafe` lines),
//! and the caller's time-out ([Budget], [Bus::wait]). README.md has a save, and what to know before relying on it.
#![no_std]
#![deny(unsafe_op_in_unsafe_fn)]
#![warn(missing_docs)]

mod bus;
mod error;
mod flash;
mod low_level;
mod patience;
mod room;

pub use bus::{Bus, Registers, Waiting};
pub use error::{EraseSectorsError, Error, WritePagesError};
pub use flash::Flash;
pub use low_level::QspiLowLevel;
pub use room::{Budget, Call, log_words};
pub use verified;
pub use verified::qspi_calls::start::Config;
pub use verified::zedboard_bsp::qspi_spansion::device_id::{BaseDeviceId, ExtendedDeviceId};
pub use verified::zedboard_bsp::qspi_spansion::{ConfigRegister1, StatusRegister1};
pub use verified::zynq7000_hal::qspi::ClockConfig;

/// A flash whose registers [Flash::new] leaves as they are.
pub const AS_IT_IS: Config =
    Config { set_quad_bit_if_necessary: false, latency_config: None, clear_write_protection: false };

// Its code is tried with the others.
#[cfg(doctest)]
#[doc = include_str!("../README.md")]
struct Readme;
