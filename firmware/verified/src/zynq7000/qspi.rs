// Made by tools/erase from crates/zynq7000/src/qspi.rt; a change belongs there.
//! The registers of the QSPI block: offsets, fields, and a register access with its two log words.
//! Names and positions are those of the Rust module `zynq7000::qspi`.

use crate::zynq7000::bits;

// Base address of the QSPI controller register block.
pub const QSPI_BASE_ADDR: u32 = 0xE000_D000;

// Offsets of the registers that the flash path accesses.
pub const CONFIG: u8 = 0x00;

pub const INTERRUPT_STATUS: u8 = 0x04;

pub const SPI_ENABLE: u8 = 0x14;

pub const TX_DATA_00: u8 = 0x1C;

pub const RX_DATA: u8 = 0x20;

pub const TX_FIFO_THRESHOLD: u8 = 0x28;

pub const RX_FIFO_THRESHOLD: u8 = 0x2C;

pub const LOOPBACK_MASTER_CLOCK_DELAY: u8 = 0x38;

pub const TX_DATA_01: u8 = 0x80;

pub const TX_DATA_10: u8 = 0x84;

pub const TX_DATA_11: u8 = 0x88;

pub const LINEAR_QSPI_CONFIG: u8 = 0xA0;

// Where the register at an offset stands on the bus.
pub fn address(offset: u8) -> u32 {
    QSPI_BASE_ADDR + offset as u32
}

// The registers by name.
#[derive(Clone, Copy, Debug, PartialEq, Eq)]
pub enum Register {
    Config,
    InterruptStatus,
    SpiEnable,
    // Four bytes.
    TxData00,
    RxData,
    TxFifoThreshold,
    RxFifoThreshold,
    LoopbackMasterClockDelay,
    // One byte, two, three.
    TxData01,
    TxData10,
    TxData11,
    LinearQspiConfig,
}

impl Register {
    // A match and no discriminants: each offset stands once, as the constant of `u8` that the crates above name,
    // and a discriminant would repeat its number or cast it.
    pub fn offset(self) -> u8 {
        match self {
            Register::Config => CONFIG,
            Register::InterruptStatus => INTERRUPT_STATUS,
            Register::SpiEnable => SPI_ENABLE,
            Register::TxData00 => TX_DATA_00,
            Register::RxData => RX_DATA,
            Register::TxFifoThreshold => TX_FIFO_THRESHOLD,
            Register::RxFifoThreshold => RX_FIFO_THRESHOLD,
            Register::LoopbackMasterClockDelay => LOOPBACK_MASTER_CLOCK_DELAY,
            Register::TxData01 => TX_DATA_01,
            Register::TxData10 => TX_DATA_10,
            Register::TxData11 => TX_DATA_11,
            Register::LinearQspiConfig => LINEAR_QSPI_CONFIG,
        }
    }
}

// Baud rate divisor register values.
#[derive(Clone, Copy, Debug, PartialEq, Eq)]
pub enum BaudRateDivisor {
    _2 = 0,
    _4 = 1,
    _8 = 2,
    _16 = 3,
    _32 = 4,
    _64 = 5,
    _128 = 6,
    _256 = 7,
}

impl BaudRateDivisor {
    // What the reference clock is divided by.
    pub fn divisor(self) -> u32 {
        2 << self as u32
    }

    // The code of the config register's field.
    pub fn raw_value(self) -> u32 {
        self as u32
    }
}

// Flash read instruction sent in linear addressing mode.
#[derive(Clone, Copy, Debug, PartialEq, Eq)]
pub enum InstructionCode {
    Read = 0x03,
    FastRead = 0x0B,
    FastReadDualOutput = 0x3B,
    FastReadQuadOutput = 0x6B,
    FastReadDualIo = 0xBB,
    FastReadQuadIo = 0xEB,
}

impl InstructionCode {
    // The instruction's byte.
    pub fn raw_value(self) -> u32 {
        self as u8 as u32
    }
}

// Configuration register, offset 00: the lowest bit of each field.
#[derive(Clone, Copy, Debug, PartialEq, Eq)]
pub struct Config(pub u32);

impl Config {
    // 1: the QSPI flash memory interface; 0: legacy SPI.
    pub const INTERFACE_MODE: u32 = 31;
    // 0: least significant byte first.
    pub const EDIANNESS: u32 = 26;
    // Drives the HOLD_B/WP_B pin high while in the reset state.
    pub const HOLDB_DR: u32 = 19;
    // Triggers a manual data transfer when manual start mode is enabled.
    pub const MANUAL_START_COMMAND: u32 = 16;
    // Requires a manual start command to begin a data transfer.
    pub const MANUAL_START_ENABLE: u32 = 15;
    // Enables manual chip select control instead of automatic assertion.
    pub const MANUAL_CS: u32 = 14;
    // Directly drives the chip select line when it is driven manually.
    pub const PERIPHERAL_CHIP_SELECT: u32 = 10;
    // Two bits. The only valid value is 3 (32 bits).
    pub const FIFO_WIDTH: u32 = 6;
    // Three bits: reference clock divisor used to derive the SPI clock.
    pub const BAUD_RATE_DIV: u32 = 3;
    // 1: the SPI clock is inactive outside the word.
    pub const CLOCK_PHASE: u32 = 2;
    // 1: the SPI clock is quiescent high.
    pub const CLOCK_POLARITY: u32 = 1;
    // Must be 1 before using QSPI.
    pub const MODE_SELECT: u32 = 0;

    // The lowest bits of the fields, from bit 31 down. Each register lists its own constants, so that a trait
    // would share no line of the lists, and only name them once more.
    pub fn field_bits() -> [u32; 12] {
        [
            Self::INTERFACE_MODE,
            Self::EDIANNESS,
            Self::HOLDB_DR,
            Self::MANUAL_START_COMMAND,
            Self::MANUAL_START_ENABLE,
            Self::MANUAL_CS,
            Self::PERIPHERAL_CHIP_SELECT,
            Self::FIFO_WIDTH,
            Self::BAUD_RATE_DIV,
            Self::CLOCK_PHASE,
            Self::CLOCK_POLARITY,
            Self::MODE_SELECT,
        ]
    }
}

// Interrupt status register, offset 04: the bits.
#[derive(Clone, Copy, Debug, PartialEq, Eq)]
pub struct InterruptStatus(pub u32);

impl InterruptStatus {
    pub const TX_UNDERFLOW: u32 = 6;
    // RX FIFO is full.
    pub const RX_FULL: u32 = 5;
    // RX FIFO level is above the threshold: with a threshold of 1, a word waits.
    pub const RX_ABOVE_THRESHOLD: u32 = 4;
    // TX FIFO is full.
    pub const TX_FULL: u32 = 3;
    // TX FIFO level is below the threshold.
    pub const TX_BELOW_THRESHOLD: u32 = 2;

    pub const RX_OVERRUN: u32 = 0;

    // The lowest bits of the fields, from bit 31 down.
    pub fn field_bits() -> [u32; 6] {
        [
            Self::TX_UNDERFLOW,
            Self::RX_FULL,
            Self::RX_ABOVE_THRESHOLD,
            Self::TX_FULL,
            Self::TX_BELOW_THRESHOLD,
            Self::RX_OVERRUN,
        ]
    }

    // Whether an RX word waits.
    pub fn rx_above_threshold(self) -> bool {
        bits::is_set(self.0, InterruptStatus::RX_ABOVE_THRESHOLD)
    }
}

// SPI enable register, offset 14.
#[derive(Clone, Copy, Debug, PartialEq, Eq)]
pub struct SpiEnable(pub u32);

impl SpiEnable {
    // Enables the SPI/QSPI controller.
    pub const ENABLE: u32 = 0;

    // The lowest bits of the fields, from bit 31 down.
    pub fn field_bits() -> [u32; 1] {
        [Self::ENABLE]
    }
}

// Loopback master clock delay register, offset 38: the lowest bit of each field.
#[derive(Clone, Copy, Debug, PartialEq, Eq)]
pub struct LoopbackMasterClockDelay(pub u32);

impl LoopbackMasterClockDelay {
    // Use the internal loopback clock for read data capturing when the baud rate divisor is 2.
    pub const USE_LOOPBACK: u32 = 5;
    // Two bits: upper delay element for the loopback master clock.
    pub const DELAY_1: u32 = 3;
    // Three bits: lower delay element for the loopback master clock.
    pub const DELAY_0: u32 = 0;

    // The lowest bits of the fields, from bit 31 down.
    pub fn field_bits() -> [u32; 3] {
        [Self::USE_LOOPBACK, Self::DELAY_1, Self::DELAY_0]
    }
}

// Linear QSPI configuration register, offset A0, controlling memory-mapped flash reads: the lowest
// bit of each field.
#[derive(Clone, Copy, Debug, PartialEq, Eq)]
pub struct LinearQspiConfig(pub u32);

impl LinearQspiConfig {
    // Enables the linear addressing mode, exposing the flash as memory-mapped space.
    pub const ENABLE_LINEAR_MODE: u32 = 31;
    // Both attached memories are used together to widen the data bus.
    pub const BOTH_MEMORIES: u32 = 30;
    // Only has a meaning if both memories are used.
    pub const SEPARATE_MEMORY_BUS: u32 = 29;
    // Only has a meaning if both memories are used over one bus, without linear mode.
    pub const UPPER_MEMORY_PAGE: u32 = 28;
    // Enables sending mode bits after the address in the read command.
    pub const MODE_ENABLE: u32 = 25;
    // Selects whether the mode bits say that the next access needs no instruction byte.
    pub const MODE_ON: u32 = 24;
    // Eight bits, sent after the address when mode bit output is enabled.
    pub const MODE_BITS: u32 = 16;
    // Three bits: dummy bytes between the address and the returned data.
    pub const NUM_DUMMY_BYTES: u32 = 8;
    // Eight bits: read instruction sent to the flash device for linear reads.
    pub const INSTRUCTION_CODE: u32 = 0;

    // The lowest bits of the fields, from bit 31 down.
    pub fn field_bits() -> [u32; 9] {
        [
            Self::ENABLE_LINEAR_MODE,
            Self::BOTH_MEMORIES,
            Self::SEPARATE_MEMORY_BUS,
            Self::UPPER_MEMORY_PAGE,
            Self::MODE_ENABLE,
            Self::MODE_ON,
            Self::MODE_BITS,
            Self::NUM_DUMMY_BYTES,
            Self::INSTRUCTION_CODE,
        ]
    }
}

// A register access: the offset, and the value that was read or written.
#[derive(Clone, Copy, Debug, PartialEq, Eq)]
pub enum Access {
    Read(u8, u32),
    Write(u8, u32),
}

// The two words of an access in a log.
#[derive(Clone, Copy, Debug, PartialEq, Eq)]
pub struct LogWords {
    pub first: u32,
    pub value: u32,
}

// Two words that are no access (refusal 13).
#[derive(Clone, Copy, Debug, PartialEq, Eq)]
pub struct BadLog;

impl Access {
    // The access as it stands in a log.
    pub fn words(self) -> LogWords {
        match self {
            Access::Read(offset, value) => LogWords {
                first: 0x100 + offset as u32,
                value,
            },
            Access::Write(offset, value) => LogWords {
                first: offset as u32,
                value,
            },
        }
    }

    // What the two words of a log record are.
    pub fn of_words(first: u32, value: u32) -> Result<Access, BadLog> {
        if 0x1FC < first || first % 4 != 0 {
            return Err(BadLog);
        }
        if first < 0x100 {
            Ok(Access::Write(first as u8, value))
        } else {
            Ok(Access::Read((first - 0x100) as u8, value))
        }
    }
}
