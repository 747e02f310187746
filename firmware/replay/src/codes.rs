//! The exports' mapping of codes to the enums of the erased package, with the refusals of a code that is none.
//! After `crates/qspi_abi/src/codes.rt` and the calls of `lib.rt` that make no access.

use crate::call::{ClockCodes, Ended};
use verified::zedboard_bsp::qspi_spansion::device_id::{BaseDeviceId, ExtendedDeviceId};
use verified::zynq7000::qspi::{BaudRateDivisor, InstructionCode};
use verified::zynq7000::slcr::clocks::SrcSelIo;
use verified::zynq7000_hal::clocks::Clocks;
use verified::zynq7000_hal::qspi::{
    BaudRateConfig, ClockCalculationError, ClockConfig, QspiDeviceCombination, QspiVendor,
    linear_mode_config_for_common_devices,
};

const UNKNOWN_CODE: u32 = 11;
pub(crate) const FIELD_TOO_WIDE: u32 = 12;

fn source(code: u8) -> Option<SrcSelIo> {
    Some(match code {
        0 => SrcSelIo::IoPll,
        1 => SrcSelIo::IoPllAlt,
        2 => SrcSelIo::ArmPll,
        3 => SrcSelIo::DdrPll,
        _ => return None,
    })
}

fn divisor(code: u8) -> Option<BaudRateDivisor> {
    Some(match code {
        0 => BaudRateDivisor::_2,
        1 => BaudRateDivisor::_4,
        2 => BaudRateDivisor::_8,
        3 => BaudRateDivisor::_16,
        4 => BaudRateDivisor::_32,
        5 => BaudRateDivisor::_64,
        6 => BaudRateDivisor::_128,
        7 => BaudRateDivisor::_256,
        _ => return None,
    })
}

fn instruction(code: u8) -> Option<InstructionCode> {
    Some(match code {
        0x03 => InstructionCode::Read,
        0x0B => InstructionCode::FastRead,
        0x3B => InstructionCode::FastReadDualOutput,
        0x6B => InstructionCode::FastReadQuadOutput,
        0xBB => InstructionCode::FastReadDualIo,
        0xEB => InstructionCode::FastReadQuadIo,
        _ => return None,
    })
}

/// None where a code is none; with loopback too, although its divisor is always 2.
pub(crate) fn clock_config(codes: ClockCodes) -> Option<ClockConfig> {
    let (src_sel, divisor) = (source(codes.src_sel)?, divisor(codes.baud_rate_div)?);
    let baud_rate_config =
        if codes.loopback { BaudRateConfig::WithLoopback } else { BaudRateConfig::WithoutLoopback(divisor) };
    Some(ClockConfig { src_sel, ref_clk_div: codes.ref_clk_div, baud_rate_config })
}

pub(crate) fn calculate(src_sel: u8, clocks: Clocks, ref_target: u32, interface_target: u32) -> Ended {
    clock_end(source(src_sel).map(|source| ClockConfig::calculate(source, clocks, ref_target, interface_target)))
}

pub(crate) fn calculate_with_loopback(src_sel: u8, clocks: Clocks, interface_target: u32) -> Ended {
    clock_end(source(src_sel).map(|source| ClockConfig::calculate_with_loopback(source, clocks, interface_target)))
}

fn clock_end(calculation: Option<Result<ClockConfig, ClockCalculationError>>) -> Ended {
    match calculation {
        None => Ended::at_once(FIELD_TOO_WIDE, &[]),
        Some(Err(error)) => Ended::at_once(error.number().into(), &[]),
        Some(Ok(config)) => Ended::at_once(0, &clock_values(config)),
    }
}

fn clock_values(config: ClockConfig) -> [u32; 4] {
    let loopback = matches!(config.baud_rate_config, BaudRateConfig::WithLoopback);
    let divisor = config.baud_rate_config.baud_rate_divisor().divisor();
    [config.src_sel.raw_value(), config.ref_clk_div.into(), loopback.into(), divisor]
}

pub(crate) fn linear_mode_config(micron: bool, code: u8, two_devices: bool) -> Ended {
    let Some(operating_mode) = instruction(code) else {
        return Ended::at_once(UNKNOWN_CODE, &[code.into()]);
    };
    let vendor = if micron { QspiVendor::Micron } else { QspiVendor::WinbondAndSpansion };
    let combination = QspiDeviceCombination { vendor, operating_mode, two_devices };
    Ended::at_once(0, &[linear_mode_config_for_common_devices(combination).0])
}

/// 0 for a listed code, else 11.
fn listed(known: bool) -> u32 {
    if known { 0 } else { UNKNOWN_CODE }
}

pub(crate) fn id_values(id: BaseDeviceId) -> [u32; 4] {
    let interface = listed(id.memory_interface_type().is_ok());
    let density = listed(id.density().is_ok());
    [id.manufacturer_id().into(), id.device_id_raw().into(), interface, density]
}

pub(crate) fn long_id_values(id: ExtendedDeviceId) -> [u32; 9] {
    let [manufacturer, device, interface, density] = id_values(id.base_id());
    let arch = listed(id.sector_arch().is_ok());
    let model = u16::from_be_bytes(id.model_number_raw());
    let (length, arch_raw, family) = (id.id_cfi_len().into(), id.sector_arch_raw().into(), id.family_id().into());
    [manufacturer, device, interface, density, length, arch_raw, arch, family, model.into()]
}
