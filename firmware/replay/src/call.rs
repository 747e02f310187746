//! The calls, with the numbers that the exports of `qspi_abi` take, and how each one starts in the erased package.
//! [Ended] has the numbers that the exports hand back.

use crate::codes;
use verified::qspi_calls::start::{self, Config};
use verified::qspi_operation::Op;
use verified::qspi_script::{Gives, Lent};
use verified::zynq7000_hal::clocks::Clocks;

/// A call. List, data and read buffer are lent beside it; one that takes none is lent an empty one.
#[derive(Clone, Copy, Debug, PartialEq, Eq)]
pub enum Call {
    Calculate { src_sel: u8, clocks: Clocks, target_qspi_ref_clock: u32, target_qspi_interface_clock: u32 },
    CalculateWithLoopback { src_sel: u8, clocks: Clocks, target_qspi_interface_clock: u32 },
    LinearModeConfig { micron: bool, operating_mode: u8, two_devices: bool },
    Initialize { clock: ClockCodes, phase: bool, polarity: bool },
    EnableLinearAddressing { config: u32 },
    EnableIoMode { dual_flash: bool },
    Disable,
    New { set_quad_bit_if_necessary: bool, set_latency: bool, latency: u8, clear_write_protection: bool },
    WriteEnable,
    WriteDisable,
    ClearStatus,
    WriteStatus { sr: u8 },
    WriteStatusAndConfigRegister { sr: u8, cr: u8 },
    ReadStatusRegister1,
    ReadConfigurationRegister,
    ReadRdidBase,
    ReadRdidExtended,
    EraseSector { addr: u32 },
    Program { addr: u32 },
    WritePages { addr: u32 },
    ReadPageRead { addr: u32 },
    ReadFastRead { addr: u32, dummy_byte: bool },
    EraseSectors,
    SetWriteProtection { protection: u8 },
}

/// A clock configuration in codes; that of the divisor is also looked at with loopback.
#[derive(Clone, Copy, Debug, PartialEq, Eq)]
pub struct ClockCodes {
    pub src_sel: u8,
    pub ref_clk_div: u8,
    pub loopback: bool,
    pub baud_rate_div: u8,
}

/// The most values that a call gives.
pub const MOST_VALUES: usize = 9;

/// How a call ended: the answer's number, the used counts, the bytes programmed or the sectors finished, and its values in the
/// order of the export's struct.
#[derive(Clone, Copy, Debug, PartialEq, Eq)]
pub struct Ended {
    pub answer: u32,
    pub used: usize,
    pub replies: usize,
    pub counted: usize,
    pub values: [u32; MOST_VALUES],
}

impl Ended {
    /// The end of a call that made no access.
    pub fn at_once(answer: u32, values: &[u32]) -> Ended {
        Ended { answer, used: 0, replies: 0, counted: 0, values: padded(values) }
    }
}

/// Zeros behind the values.
pub fn padded(values: &[u32]) -> [u32; MOST_VALUES] {
    let mut all = [0; MOST_VALUES];
    all[..values.len()].copy_from_slice(values);
    all
}

/// A call is an operation to be stepped, or has its answer without one.
pub enum Start {
    Operation(Op),
    Answered(Ended),
}

impl Call {
    /// The name in the stored list.
    pub fn name(self) -> &'static str {
        match self {
            Call::Calculate { .. } => "calculate",
            Call::CalculateWithLoopback { .. } => "loopback",
            Call::LinearModeConfig { .. } => "linear_config",
            Call::Initialize { .. } => "initialize",
            Call::EnableLinearAddressing { .. } => "enable_linear",
            Call::EnableIoMode { .. } => "enable_io_mode",
            Call::Disable => "disable",
            Call::New { .. } => "new",
            Call::WriteEnable => "write_enable",
            Call::WriteDisable => "write_disable",
            Call::ClearStatus => "clear_status",
            Call::WriteStatus { .. } => "write_status",
            Call::WriteStatusAndConfigRegister { .. } => "write_both",
            Call::ReadStatusRegister1 => "read_status",
            Call::ReadConfigurationRegister => "read_config",
            Call::ReadRdidBase => "read_id",
            Call::ReadRdidExtended => "read_long_id",
            Call::EraseSector { .. } => "erase_sector",
            Call::Program { .. } => "program",
            Call::WritePages { .. } => "write_pages",
            Call::ReadPageRead { .. } => "read_page_read",
            Call::ReadFastRead { .. } => "read_fast_read",
            Call::EraseSectors => "erase_sectors",
            // Not in the list: the published Rust panics.
            Call::SetWriteProtection { .. } => "set_protection",
        }
    }

    pub fn takes_list(self) -> bool {
        self == Call::EraseSectors
    }

    pub fn takes_data(self) -> bool {
        matches!(self, Call::Program { .. } | Call::WritePages { .. })
    }

    pub fn takes_buffer(self) -> bool {
        matches!(self, Call::ReadPageRead { .. } | Call::ReadFastRead { .. })
    }

    /// How many values the call gives.
    pub fn values(self) -> usize {
        match self {
            Call::Calculate { .. } | Call::CalculateWithLoopback { .. } | Call::ReadRdidBase => 4,
            Call::LinearModeConfig { .. } | Call::Initialize { .. } => 1,
            Call::ReadStatusRegister1 | Call::ReadConfigurationRegister | Call::EraseSectors => 1,
            Call::ReadRdidExtended => MOST_VALUES,
            _ => 0,
        }
    }

    /// What the erased package says that the call gives, once it is done. A list of sectors gives a place, this one or another,
    /// where it is refused for an entry.
    pub fn gives(self) -> Gives {
        match self {
            Call::Initialize { .. } => Gives::Clock,
            Call::ReadStatusRegister1 | Call::ReadConfigurationRegister => Gives::Register,
            Call::ReadRdidBase => Gives::Id,
            Call::ReadRdidExtended => Gives::LongId,
            Call::EraseSectors => Gives::Place(0),
            _ => Gives::Nothing,
        }
    }

    /// The call as the erased package begins it, where this list and memory of these lengths is lent.
    pub fn start(self, list: &[u32], lent: Lent) -> Start {
        let log = lent.log;
        Start::Operation(match self {
            Call::Calculate { src_sel, clocks, target_qspi_ref_clock: target, target_qspi_interface_clock } => {
                return Start::Answered(codes::calculate(src_sel, clocks, target, target_qspi_interface_clock));
            }
            Call::CalculateWithLoopback { src_sel, clocks, target_qspi_interface_clock } => {
                return Start::Answered(codes::calculate_with_loopback(src_sel, clocks, target_qspi_interface_clock));
            }
            Call::LinearModeConfig { micron, operating_mode, two_devices } => {
                return Start::Answered(codes::linear_mode_config(micron, operating_mode, two_devices));
            }
            Call::Initialize { clock, phase, polarity } => return initialize(clock, phase, polarity, log),
            Call::EnableLinearAddressing { config } => start::enable_linear_addressing(config, log),
            Call::EnableIoMode { dual_flash } => start::enable_io_mode(dual_flash, log),
            Call::Disable => start::disable(log),
            Call::New { set_quad_bit_if_necessary, set_latency, latency, clear_write_protection } => {
                let latency_config = set_latency.then_some(latency);
                start::new(Config { set_quad_bit_if_necessary, latency_config, clear_write_protection }, log)
            }
            Call::WriteEnable => start::write_enable(log),
            Call::WriteDisable => start::write_disable(log),
            Call::ClearStatus => start::clear_status(log),
            Call::WriteStatus { sr } => start::write_status(sr, log),
            Call::WriteStatusAndConfigRegister { sr, cr } => start::write_status_and_config_register(sr, cr, log),
            Call::ReadStatusRegister1 => start::read_status_register_1(log),
            Call::ReadConfigurationRegister => start::read_configuration_register(log),
            Call::ReadRdidBase => start::read_rdid_base(log),
            Call::ReadRdidExtended => start::read_rdid_extended(log),
            Call::EraseSector { addr } => start::erase_sector(addr, log),
            Call::Program { addr } => start::program(addr, lent.data, log),
            Call::WritePages { addr } => start::write_pages(addr, lent.data, log),
            Call::ReadPageRead { addr } => start::read_page_read(addr, lent.buffer, log),
            Call::ReadFastRead { addr, dummy_byte } => start::read_fast_read(addr, dummy_byte, lent.buffer, log),
            Call::EraseSectors => start::erase_sectors(list, log),
            Call::SetWriteProtection { protection } => start::set_write_protection(protection, log),
        })
    }
}

fn initialize(clock: ClockCodes, phase: bool, polarity: bool, log: usize) -> Start {
    match codes::clock_config(clock) {
        Some(config) => Start::Operation(start::initialize(config, phase, polarity, log)),
        None => Start::Answered(Ended::at_once(codes::FIELD_TOO_WIDE, &[])),
    }
}
