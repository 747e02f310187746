// Made by tools/erase from crates/qspi_transfer/src/low_level.rt; a change belongs there.
//! The calls of the Rust's `QspiLowLevel` that write registers and send nothing, access by access.

use crate::qspi_transfer::Due;
use crate::zynq7000::bits;
use crate::zynq7000::qspi;
use crate::zynq7000::qspi::Config;
use crate::zynq7000::qspi::LoopbackMasterClockDelay;

#[derive(Clone, Copy, Debug, PartialEq, Eq)]
pub enum Sequence {
    Initialize,
    InitializeWithLoopback,
    EnableLinearAddressing,
    EnableIoMode,
    Disable,
}

impl Sequence {
    // How many accesses follow the first.
    pub fn more(self) -> u32 {
        match self {
            Sequence::Initialize => 0,
            Sequence::InitializeWithLoopback => 1,
            Sequence::EnableLinearAddressing => 3,
            Sequence::EnableIoMode => 4,
            Sequence::Disable => 2,
        }
    }
}

// The config word, then with loopback the loopback delay.
fn initialize_due(at: u32, word: u32) -> Due {
    match at {
        0 => Due::Write(qspi::CONFIG, word),
        _ => Due::Write(
            qspi::LOOPBACK_MASTER_CLOCK_DELAY,
            1 << LoopbackMasterClockDelay::USE_LOOPBACK,
        ),
    }
}

// Start and chip select are the controller's in this mode: the manual wants these bits 0, says the Rust.
fn linear_config(config: u32) -> u32 {
    bits::clear(
        bits::clear(
            bits::clear(config, Config::MANUAL_START_ENABLE),
            Config::MANUAL_CS,
        ),
        Config::PERIPHERAL_CHIP_SELECT,
    )
}

// Start and chip select are the program's in this mode.
fn io_config(config: u32) -> u32 {
    bits::put(
        bits::put(config, Config::MANUAL_START_ENABLE),
        Config::MANUAL_CS,
    )
}

fn enable_linear_addressing_due(at: u32, config: u32, word: u32) -> Due {
    match at {
        0 => Due::Write(qspi::SPI_ENABLE, 0),
        1 => Due::Read(qspi::CONFIG),
        2 => Due::Write(qspi::CONFIG, linear_config(config)),
        _ => Due::Write(qspi::LINEAR_QSPI_CONFIG, word),
    }
}

fn enable_io_mode_due(at: u32, config: u32, word: u32) -> Due {
    match at {
        0 => Due::Read(qspi::CONFIG),
        1 => Due::Write(qspi::CONFIG, io_config(config)),
        2 => Due::Write(qspi::RX_FIFO_THRESHOLD, 1),
        3 => Due::Write(qspi::TX_FIFO_THRESHOLD, 1),
        _ => Due::Write(qspi::LINEAR_QSPI_CONFIG, word),
    }
}

fn disable_due(at: u32, config: u32) -> Due {
    match at {
        0 => Due::Write(qspi::SPI_ENABLE, 0),
        1 => Due::Read(qspi::CONFIG),
        _ => Due::Write(
            qspi::CONFIG,
            bits::put(config, Config::PERIPHERAL_CHIP_SELECT),
        ),
    }
}

// The access at a place of a call, by the config word last read and the call's own word. They are no struct: the
// definitions take them one by one, and a sequence is handed only those that it uses.
pub fn due(sequence: Sequence, at: u32, config: u32, word: u32) -> Due {
    match sequence {
        Sequence::Initialize | Sequence::InitializeWithLoopback => initialize_due(at, word),
        Sequence::EnableLinearAddressing => enable_linear_addressing_due(at, config, word),
        Sequence::EnableIoMode => enable_io_mode_due(at, config, word),
        Sequence::Disable => disable_due(at, config),
    }
}
