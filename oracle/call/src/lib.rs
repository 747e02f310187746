//! A call of document 01 or 02, and how it ended. Both sides of the comparison run a [Call] and give an [Ended].

/// A call by the Rust's name, with its inputs as numbers.
#[derive(Clone, Debug, PartialEq, Eq)]
pub enum Call {
    Calculate {
        src_sel: u8,
        clocks: Clocks,
        target_ref: u32,
        target_interface: u32,
    },
    CalculateWithLoopback {
        src_sel: u8,
        clocks: Clocks,
        target_interface: u32,
    },
    LinearModeConfig {
        micron: bool,
        operating_mode: u8,
        two_devices: bool,
    },
    /// `baud_rate_div` is the field's code; `None` is loopback.
    Initialize {
        src_sel: u8,
        ref_clk_div: u8,
        baud_rate_div: Option<u8>,
        phase: bool,
        polarity: bool,
    },
    EnableLinearAddressing {
        config: u32,
    },
    EnableIoMode {
        dual_flash: bool,
    },
    Disable,
    New {
        set_quad: bool,
        latency: Option<u8>,
        clear_protection: bool,
    },
    WriteEnable,
    WriteDisable,
    ClearStatus,
    WriteStatus {
        sr: u8,
    },
    WriteStatusAndConfigRegister {
        sr: u8,
        cr: u8,
    },
    ReadStatusRegister1,
    ReadConfigurationRegister,
    ReadRdidBase,
    ReadRdidExtended,
    EraseSector {
        addr: u32,
    },
    Program {
        addr: u32,
        data: Vec<u8>,
    },
    WritePages {
        addr: u32,
        data: Vec<u8>,
    },
    /// Reads `length` bytes: the lent buffer may not be longer.
    ReadPageRead {
        addr: u32,
        length: usize,
    },
    ReadFastRead {
        addr: u32,
        dummy_byte: bool,
        length: usize,
    },
    /// Document 02's list (U1), which the Rust does not have.
    EraseSectors {
        list: Vec<u32>,
    },
}

/// Clocks in hertz.
#[derive(Clone, Copy, Debug, PartialEq, Eq)]
pub struct Clocks {
    pub io_ref_clk: u32,
    pub arm_ref_clk: u32,
    pub ddr_ref_clk: u32,
    pub cpu_1x_clk: u32,
}

impl Clocks {
    /// The reference clock of a source.
    pub const fn reference(&self, src_sel: u8) -> u32 {
        match src_sel {
            0 | 1 => self.io_ref_clk,
            2 => self.arm_ref_clk,
            _ => self.ddr_ref_clk,
        }
    }
}

/// How a call ended. `answer` is the papers' number, 0 where it is done.
#[derive(Clone, Debug, Default, PartialEq, Eq)]
pub struct Ended {
    pub answer: u32,
    /// The entry of a list, from 0, that 1, 2 or 32 refuses, else 0.
    pub place: u32,
    /// The values of the answer, empty where the call is not done:
    /// - clocks: source code, reference divisor, 1 with loopback else 0, baud rate divisor (2 to 256)
    /// - linear mode config: the word
    /// - `initialize`: the SLCR clock control word
    /// - status and config register: the byte
    /// - ids: manufacturer, device id, 0 or 11 for the memory interface type, 0 or 11 for the density;
    ///   the long id then: id_cfi_len, sector_arch_raw, 0 or 11 for the sector architecture, family, model number (high byte
    ///   first, as one number)
    pub values: Vec<u32>,
    /// Log words used.
    pub used: usize,
    /// Replies used.
    pub replies: usize,
    /// Bytes of `write_pages` that the answer counts, else 0.
    pub programmed: usize,
    /// Sectors of a list that the answer counts, else 0.
    pub finished: usize,
}
