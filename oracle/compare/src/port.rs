//! Runs a call on the port.

use crate::junk::Junk;
use call::{Call, Ended};
use qspi::{Clocks, IdRan, LongIdRan, PagesRan, Ran, SectorsRan, ValueRan};

/// Runs `call` over replies and a log. A read goes into `buffer`, which has the read's length.
pub fn run(call: &Call, replies: &[u32], log: &mut [u32], buffer: &mut [u8], junk: Junk) -> Ended {
    let (replies, log, buffer) = (junk.lent(replies), junk.lent_mut(log), junk.lent_mut(buffer));
    match *call {
        Call::Calculate { src_sel, clocks, target_ref, target_interface } => {
            clock_config(qspi::calculate(src_sel, hertz(clocks), target_ref, target_interface))
        }
        Call::CalculateWithLoopback { src_sel, clocks, target_interface } => {
            clock_config(qspi::calculate_with_loopback(src_sel, hertz(clocks), target_interface))
        }
        Call::LinearModeConfig { micron, operating_mode, two_devices } => {
            let preset = qspi::linear_mode_config(micron, operating_mode, two_devices);
            ended(preset.answer, vec![preset.value], 0, 0)
        }
        Call::Initialize { src_sel, ref_clk_div, baud_rate_div: None, phase, polarity } => {
            value(raw::initialize_with_loopback(src_sel, ref_clk_div, phase, polarity, replies, log, junk))
        }
        Call::Initialize { src_sel, ref_clk_div, baud_rate_div, phase, polarity } => {
            value(qspi::initialize(src_sel, ref_clk_div, baud_rate_div, phase, polarity, replies, log))
        }
        Call::EnableLinearAddressing { config } => plain(qspi::enable_linear_addressing(config, replies, log)),
        Call::EnableIoMode { dual_flash } => plain(qspi::enable_io_mode(dual_flash, replies, log)),
        Call::Disable => plain(qspi::disable(replies, log)),
        Call::New { set_quad, latency: None, clear_protection } => {
            plain(raw::new_without_latency(set_quad, clear_protection, replies, log, junk))
        }
        Call::New { set_quad, latency, clear_protection } => {
            plain(qspi::new(set_quad, latency, clear_protection, replies, log))
        }
        Call::WriteEnable => plain(qspi::write_enable(replies, log)),
        Call::WriteDisable => plain(qspi::write_disable(replies, log)),
        Call::ClearStatus => plain(qspi::clear_status(replies, log)),
        Call::WriteStatus { sr } => plain(qspi::write_status(sr, replies, log)),
        Call::WriteStatusAndConfigRegister { sr, cr } => {
            plain(qspi::write_status_and_config_register(sr, cr, replies, log))
        }
        Call::ReadStatusRegister1 => value(qspi::read_status_register_1(replies, log)),
        Call::ReadConfigurationRegister => value(qspi::read_configuration_register(replies, log)),
        Call::ReadRdidBase => id(qspi::read_rdid_base(replies, log)),
        Call::ReadRdidExtended => long_id(qspi::read_rdid_extended(replies, log)),
        Call::EraseSector { addr } => plain(qspi::erase_sector(addr, replies, log)),
        Call::Program { addr, ref data } => plain(qspi::program(addr, junk.lent(data), replies, log)),
        Call::WritePages { addr, ref data } => pages(qspi::write_pages(addr, junk.lent(data), replies, log)),
        Call::ReadPageRead { addr, .. } => plain(qspi::read_page_read(addr, buffer, replies, log)),
        Call::ReadFastRead { addr, dummy_byte, .. } => {
            plain(qspi::read_fast_read(addr, dummy_byte, buffer, replies, log))
        }
        Call::EraseSectors { ref list } => sectors(qspi::erase_sectors(junk.lent(list), replies, log)),
    }
}

fn hertz(clocks: call::Clocks) -> Clocks {
    Clocks {
        io_ref_clk: clocks.io_ref_clk,
        arm_ref_clk: clocks.arm_ref_clk,
        ddr_ref_clk: clocks.ddr_ref_clk,
        cpu_1x_clk: clocks.cpu_1x_clk,
    }
}

/// Values of a call that is not done are zeros, which leaves none. Others stay, and differ from the Rust's.
fn ended(answer: u32, values: Vec<u32>, used: usize, replies: usize) -> Ended {
    let none = answer != 0 && values.iter().all(|value| *value == 0);
    Ended { answer, values: if none { Vec::new() } else { values }, used, replies, ..Ended::default() }
}

fn plain(ran: Ran) -> Ended {
    ended(ran.answer, Vec::new(), ran.used, ran.replies)
}

fn pages(ran: PagesRan) -> Ended {
    Ended { programmed: ran.programmed, ..ended(ran.answer, Vec::new(), ran.used, ran.replies) }
}

fn sectors(ran: SectorsRan) -> Ended {
    let SectorsRan { answer, place, finished, used, replies } = ran;
    Ended { place, finished, ..ended(answer, Vec::new(), used, replies) }
}

fn value(ran: ValueRan) -> Ended {
    ended(ran.answer, vec![ran.value], ran.used, ran.replies)
}

fn clock_config(config: qspi::ClockConfig) -> Ended {
    let values = vec![config.src_sel, config.ref_clk_div, config.loopback, config.baud_rate_divisor];
    ended(config.answer, values, 0, 0)
}

/// What the codes of an id say where the call is not done follows from bytes of 0, and is no value of the answer.
fn code(answer: u32, code: u32) -> u32 {
    if answer == 0 { code } else { 0 }
}

fn id(ran: IdRan) -> Ended {
    let values = vec![
        ran.manufacturer_id,
        ran.device_id,
        code(ran.answer, ran.memory_interface_type),
        code(ran.answer, ran.density),
    ];
    ended(ran.answer, values, ran.used, ran.replies)
}

fn long_id(ran: LongIdRan) -> Ended {
    let values = vec![
        ran.manufacturer_id,
        ran.device_id,
        code(ran.answer, ran.memory_interface_type),
        code(ran.answer, ran.density),
        ran.id_cfi_len,
        ran.sector_arch_raw,
        code(ran.answer, ran.sector_arch),
        ran.family_id,
        ran.model_number,
    ];
    ended(ran.answer, values, ran.used, ran.replies)
}

/// The two functions with an argument that is not looked at: the bindings always hand on 0 there, a C program anything.
mod raw {
    use crate::junk::Junk;
    use qspi::{Ran, ValueRan};

    #[repr(C)]
    struct RawRan {
        answer: u32,
        used: usize,
        replies: usize,
    }

    #[repr(C)]
    struct RawValueRan {
        answer: u32,
        value: u32,
        used: usize,
        replies: usize,
    }

    // As in include/qspi.h.
    unsafe extern "C" {
        fn qspi_new(
            set_quad_bit_if_necessary: bool,
            set_latency: bool,
            latency: u8,
            clear_write_protection: bool,
            replies: *const u32,
            replies_len: usize,
            log: *mut u32,
            log_len: usize,
        ) -> RawRan;
        fn qspi_initialize(
            src_sel: u8,
            ref_clk_div: u8,
            loopback: bool,
            baud_rate_div: u8,
            phase: bool,
            polarity: bool,
            replies: *const u32,
            replies_len: usize,
            log: *mut u32,
            log_len: usize,
        ) -> RawValueRan;
    }

    /// `qspi_new` with any latency where none is asked for.
    pub fn new_without_latency(
        set_quad: bool,
        clear_protection: bool,
        replies: &[u32],
        log: &mut [u32],
        junk: Junk,
    ) -> Ran {
        if junk.latency() == 0 {
            return qspi::new(set_quad, None, clear_protection, replies, log);
        }
        let (given, room) = (replies.len(), log.len());
        // SAFETY: every pointer comes from a slice with its length, and no mutable slice overlaps another.
        let RawRan { answer, used, replies } = unsafe {
            let (replies, log) = (replies.as_ptr(), log.as_mut_ptr());
            qspi_new(set_quad, false, junk.latency(), clear_protection, replies, given, log, room)
        };
        Ran { answer, used, replies }
    }

    /// `qspi_initialize` with loopback and any code of the divisor.
    pub fn initialize_with_loopback(
        src_sel: u8,
        ref_clk_div: u8,
        phase: bool,
        polarity: bool,
        replies: &[u32],
        log: &mut [u32],
        junk: Junk,
    ) -> ValueRan {
        if junk.baud_rate_div() == 0 {
            return qspi::initialize(src_sel, ref_clk_div, None, phase, polarity, replies, log);
        }
        let (code, given, room) = (junk.baud_rate_div(), replies.len(), log.len());
        // SAFETY: every pointer comes from a slice with its length, and no mutable slice overlaps another.
        let RawValueRan { answer, value, used, replies } = unsafe {
            let (replies, log) = (replies.as_ptr(), log.as_mut_ptr());
            qspi_initialize(src_sel, ref_clk_div, true, code, phase, polarity, replies, given, log, room)
        };
        ValueRan { answer, value, used, replies }
    }
}
