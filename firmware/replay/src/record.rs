//! A record of the stored list, whose layout is at the top of `crates/oracle_cases/src/main.rt`.
//! Past the end of the bytes there are zeros: the caller has looked at the length.

use crate::call::{Call, ClockCodes};
use verified::zynq7000_hal::clocks::Clocks;

/// Bytes before the body.
pub(crate) const HEADER: usize = 14;
pub(crate) const MOST_DATA: usize = 768;
pub(crate) const MOST_LOG: usize = 4096;
pub(crate) const MOST_REPLIES: usize = 1024;
/// As many as data bytes: a record has one length.
pub(crate) const MOST_LISTED: usize = MOST_DATA;

/// The kind with a list of sectors, the last one.
const SECTORS: u8 = 22;

pub(crate) struct Record {
    pub kind: u8,
    flags: u8,
    pub first: u8,
    second: u8,
    word: u32,
    pub length: usize,
    pub room: usize,
    pub body: usize,
}

fn byte_at(bytes: &[u8], at: usize) -> u8 {
    bytes.get(at).copied().unwrap_or(0)
}

pub(crate) fn pair_at(bytes: &[u8], at: usize) -> usize {
    u16::from_le_bytes([byte_at(bytes, at), byte_at(bytes, at + 1)]).into()
}

pub(crate) fn word_at(bytes: &[u8], at: usize) -> u32 {
    u32::from_le_bytes([0, 1, 2, 3].map(|i| byte_at(bytes, at + i)))
}

impl Record {
    pub fn header(bytes: &[u8]) -> Record {
        Record {
            kind: byte_at(bytes, 0),
            flags: byte_at(bytes, 1),
            first: byte_at(bytes, 2),
            second: byte_at(bytes, 3),
            word: word_at(bytes, 4),
            length: pair_at(bytes, 8),
            room: pair_at(bytes, 10),
            body: pair_at(bytes, 12),
        }
    }

    /// A known kind, the numbers of a clock call, and lengths that the memory has.
    pub fn is_within(&self) -> bool {
        match self.kind {
            0 => self.body == 24,
            1 => self.body == 20,
            kind => kind <= SECTORS && self.length <= MOST_DATA && self.room <= MOST_LOG,
        }
    }

    /// Entries of the list that stands before the replies: one kind has one.
    pub fn listed(&self) -> usize {
        if self.kind == SECTORS { self.length } else { 0 }
    }

    fn flag(&self, bit: u8) -> bool {
        self.flags & bit != 0
    }

    /// The call, for a record that is within; the clock calls have their numbers in the body.
    pub fn call(&self, body: &[u8]) -> Call {
        let (first, second, word) = (self.first, self.second, self.word);
        match self.kind {
            0 => self.calculate(body),
            1 => self.calculate_with_loopback(body),
            2 => Call::LinearModeConfig { micron: self.flag(1), operating_mode: first, two_devices: self.flag(2) },
            3 => Call::Initialize { clock: self.clock_codes(), phase: self.flag(2), polarity: self.flag(4) },
            4 => Call::EnableLinearAddressing { config: word },
            5 => Call::EnableIoMode { dual_flash: self.flag(1) },
            6 => Call::Disable,
            7 => self.new_call(),
            8 => Call::WriteEnable,
            9 => Call::WriteDisable,
            10 => Call::ClearStatus,
            11 => Call::WriteStatus { sr: first },
            12 => Call::WriteStatusAndConfigRegister { sr: first, cr: second },
            13 => Call::ReadStatusRegister1,
            14 => Call::ReadConfigurationRegister,
            15 => Call::ReadRdidBase,
            16 => Call::ReadRdidExtended,
            17 => Call::EraseSector { addr: word },
            18 => Call::Program { addr: word },
            19 => Call::WritePages { addr: word },
            20 => Call::ReadPageRead { addr: word },
            21 => Call::ReadFastRead { addr: word, dummy_byte: self.flag(1) },
            _ => Call::EraseSectors,
        }
    }

    fn new_call(&self) -> Call {
        Call::New {
            set_quad_bit_if_necessary: self.flag(1),
            set_latency: self.flag(2),
            latency: self.first,
            clear_write_protection: self.flag(4),
        }
    }

    /// The first argument has the codes of source and divisor.
    fn clock_codes(&self) -> ClockCodes {
        ClockCodes {
            src_sel: self.first % 4,
            ref_clk_div: self.second,
            loopback: self.flag(1),
            baud_rate_div: self.first / 4,
        }
    }

    fn calculate(&self, body: &[u8]) -> Call {
        Call::Calculate {
            src_sel: self.first,
            clocks: clocks(body),
            target_qspi_ref_clock: word_at(body, 16),
            target_qspi_interface_clock: word_at(body, 20),
        }
    }

    fn calculate_with_loopback(&self, body: &[u8]) -> Call {
        Call::CalculateWithLoopback {
            src_sel: self.first,
            clocks: clocks(body),
            target_qspi_interface_clock: word_at(body, 16),
        }
    }
}

fn clocks(body: &[u8]) -> Clocks {
    Clocks {
        io_ref_clk: word_at(body, 0),
        arm_ref_clk: word_at(body, 4),
        ddr_ref_clk: word_at(body, 8),
        cpu_1x_clk: word_at(body, 12),
    }
}
