//! A call of the archive, by the binding `qspi`, with its numbers in the form of the erased package's end.
//! Each struct of the binding has its values in the order of its fields.

use crate::case::Case;
use qspi::{ClockConfig, Clocks, IdRan, LongIdRan, PagesRan, Preset, Ran, SectorsRan, ValueRan};
use replay::call::{Call, ClockCodes, Ended, padded};

fn ran(ran: Ran) -> Ended {
    Ended { used: ran.used, replies: ran.replies, ..Ended::at_once(ran.answer, &[]) }
}

fn pages(ran: PagesRan) -> Ended {
    Ended { used: ran.used, replies: ran.replies, counted: ran.programmed, ..Ended::at_once(ran.answer, &[]) }
}

fn sectors(ran: SectorsRan) -> Ended {
    Ended { used: ran.used, replies: ran.replies, counted: ran.finished, ..Ended::at_once(ran.answer, &[ran.place]) }
}

fn value(ran: ValueRan) -> Ended {
    Ended { used: ran.used, replies: ran.replies, ..Ended::at_once(ran.answer, &[ran.value]) }
}

fn id(ran: IdRan) -> Ended {
    let values = [ran.manufacturer_id, ran.device_id, ran.memory_interface_type, ran.density];
    Ended { used: ran.used, replies: ran.replies, ..Ended::at_once(ran.answer, &values) }
}

fn long_id(ran: LongIdRan) -> Ended {
    let values = padded(&[
        ran.manufacturer_id,
        ran.device_id,
        ran.memory_interface_type,
        ran.density,
        ran.id_cfi_len,
        ran.sector_arch_raw,
        ran.sector_arch,
        ran.family_id,
        ran.model_number,
    ]);
    Ended { answer: ran.answer, used: ran.used, replies: ran.replies, counted: 0, values }
}

fn clock(config: ClockConfig) -> Ended {
    let ClockConfig { answer, src_sel, ref_clk_div, loopback, baud_rate_divisor } = config;
    Ended::at_once(answer, &[src_sel, ref_clk_div, loopback, baud_rate_divisor])
}

fn preset(preset: Preset) -> Ended {
    Ended::at_once(preset.answer, &[preset.value])
}

fn clocks(clocks: verified::zynq7000_hal::clocks::Clocks) -> Clocks {
    let verified::zynq7000_hal::clocks::Clocks { io_ref_clk, arm_ref_clk, ddr_ref_clk, cpu_1x_clk } = clocks;
    Clocks { io_ref_clk, arm_ref_clk, ddr_ref_clk, cpu_1x_clk }
}

/// The case's call, from its start to its end.
pub(crate) fn call(case: &Case, buffer: &mut [u8], log: &mut [u32]) -> Ended {
    let (r, data) = (&case.replies[..], case.data);
    match case.call {
        Call::Calculate { src_sel, clocks: c, target_qspi_ref_clock, target_qspi_interface_clock } => {
            clock(qspi::calculate(src_sel, clocks(c), target_qspi_ref_clock, target_qspi_interface_clock))
        }
        Call::CalculateWithLoopback { src_sel, clocks: c, target_qspi_interface_clock } => {
            clock(qspi::calculate_with_loopback(src_sel, clocks(c), target_qspi_interface_clock))
        }
        Call::LinearModeConfig { micron, operating_mode, two_devices } => {
            preset(qspi::linear_mode_config(micron, operating_mode, two_devices))
        }
        Call::Initialize { clock, phase, polarity } => initialize(clock, phase, polarity, r, log),
        Call::EnableLinearAddressing { config } => ran(qspi::enable_linear_addressing(config, r, log)),
        Call::EnableIoMode { dual_flash } => ran(qspi::enable_io_mode(dual_flash, r, log)),
        Call::Disable => ran(qspi::disable(r, log)),
        Call::New { set_quad_bit_if_necessary: quad, set_latency, latency, clear_write_protection } => {
            ran(qspi::new(quad, set_latency.then_some(latency), clear_write_protection, r, log))
        }
        Call::WriteEnable => ran(qspi::write_enable(r, log)),
        Call::WriteDisable => ran(qspi::write_disable(r, log)),
        Call::ClearStatus => ran(qspi::clear_status(r, log)),
        Call::WriteStatus { sr } => ran(qspi::write_status(sr, r, log)),
        Call::WriteStatusAndConfigRegister { sr, cr } => ran(qspi::write_status_and_config_register(sr, cr, r, log)),
        Call::ReadStatusRegister1 => value(qspi::read_status_register_1(r, log)),
        Call::ReadConfigurationRegister => value(qspi::read_configuration_register(r, log)),
        Call::ReadRdidBase => id(qspi::read_rdid_base(r, log)),
        Call::ReadRdidExtended => long_id(qspi::read_rdid_extended(r, log)),
        Call::EraseSector { addr } => ran(qspi::erase_sector(addr, r, log)),
        Call::Program { addr } => ran(qspi::program(addr, data, r, log)),
        Call::WritePages { addr } => pages(qspi::write_pages(addr, data, r, log)),
        Call::ReadPageRead { addr } => ran(qspi::read_page_read(addr, buffer, r, log)),
        Call::ReadFastRead { addr, dummy_byte } => ran(qspi::read_fast_read(addr, dummy_byte, buffer, r, log)),
        Call::EraseSectors => sectors(qspi::erase_sectors(&case.list, r, log)),
        Call::SetWriteProtection { protection } => ran(qspi::set_write_protection(protection, r, log)),
    }
}

fn initialize(clock: ClockCodes, phase: bool, polarity: bool, replies: &[u32], log: &mut [u32]) -> Ended {
    let divisor = (!clock.loopback).then_some(clock.baud_rate_div);
    value(qspi::initialize(clock.src_sel, clock.ref_clk_div, divisor, phase, polarity, replies, log))
}
