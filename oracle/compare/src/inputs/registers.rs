//! Calls on registers of the controller and of the flash chip: all field values, all bytes, all codes.

use super::{Scale, Sweep, Swept};
use crate::check::{Cuts, On};
use crate::device::{IDLE_CONFIG, Knobs};
use crate::domain::INSTRUCTIONS;
use crate::kind::Kind;
use crate::rng::Rng;
use call::Call;

/// Register bytes that are tried with all values of the other register.
const SELECTED_BYTES: [u8; 12] = [0x00, 0x01, 0x02, 0x04, 0x1C, 0x20, 0x40, 0x80, 0x9C, 0xC2, 0xE3, 0xFF];

pub fn linear_mode_config(sweep: &mut Sweep<'_>) -> Swept {
    for micron in [false, true] {
        for operating_mode in INSTRUCTIONS {
            for two_devices in [false, true] {
                sweep.pure(Call::LinearModeConfig { micron, operating_mode, two_devices })?;
            }
        }
    }
    Ok(())
}

pub fn initialize(sweep: &mut Sweep<'_>) -> Swept {
    for src_sel in 0..4 {
        for ref_clk_div in 0..64 {
            for baud_rate_div in (0..8).map(Some).chain([None]) {
                for mode in 0..4 {
                    let (phase, polarity) = (mode & 1 != 0, mode & 2 != 0);
                    let call = Call::Initialize { src_sel, ref_clk_div, baud_rate_div, phase, polarity };
                    let cuts = if ref_clk_div % 21 == 0 { Cuts::Every } else { Cuts::Whole };
                    sweep.probe(call, On::Noise, cuts)?;
                }
            }
        }
    }
    Ok(())
}

/// Words with one bit set or one bit clear, and some that occur.
fn words(rng: &mut Rng) -> Vec<u32> {
    let single = (0..32).map(|bit| 1 << bit);
    let mut words: Vec<u32> = single.clone().chain(single.map(|word: u32| !word)).collect();
    words.extend([0, u32::MAX, IDLE_CONFIG, 0x8008_00C1, 0x8008_C0C1, 0x8000_016B, 0xE2FF_04EB, 0x01A0_02EB]);
    words.extend((0..20).map(|_| rng.word()));
    words
}

/// The call on each word as the controller's config register.
fn configs(sweep: &mut Sweep<'_>, call: &Call) -> Swept {
    for config in words(&mut sweep.rng) {
        let on = On::Device(Knobs { config, ..Knobs::plain() });
        sweep.probe(call.clone(), on, Cuts::Every)?;
    }
    Ok(())
}

pub fn enable_linear_addressing(sweep: &mut Sweep<'_>) -> Swept {
    for config in words(&mut sweep.rng) {
        sweep.drawn(Call::EnableLinearAddressing { config }, Cuts::Every)?;
    }
    configs(sweep, &Call::EnableLinearAddressing { config: 0x8000_016B })
}

pub fn enable_io_mode(sweep: &mut Sweep<'_>) -> Swept {
    configs(sweep, &Call::EnableIoMode { dual_flash: false })?;
    configs(sweep, &Call::EnableIoMode { dual_flash: true })
}

pub fn disable(sweep: &mut Sweep<'_>) -> Swept {
    configs(sweep, &Call::Disable)
}

/// Pairs of register bytes: selected ones with all, or all with all.
fn byte_pairs(scale: Scale) -> Vec<(u8, u8)> {
    let all = 0..=u8::MAX;
    if scale == Scale::Long {
        return all.clone().flat_map(|a| all.clone().map(move |b| (a, b))).collect();
    }
    let selected = SELECTED_BYTES.iter();
    selected.flat_map(|&a| all.clone().flat_map(move |b| [(a, b), (b, a)])).collect()
}

/// All configurations of `new`.
fn new_calls() -> Vec<Call> {
    let mut calls = Vec::new();
    for latency in (0..4).map(Some).chain([None]) {
        for flags in 0..4 {
            calls.push(Call::New { set_quad: flags & 1 != 0, latency, clear_protection: flags & 2 != 0 });
        }
    }
    calls
}

pub fn new(sweep: &mut Sweep<'_>) -> Swept {
    let pairs = byte_pairs(sweep.scale);
    for call in new_calls() {
        for &(status, config_register) in &pairs {
            let on = On::Device(Knobs { status, config_register, ..Knobs::plain() });
            sweep.probe(call.clone(), on, Cuts::Whole)?;
        }
        for _ in 0..20 {
            sweep.drawn(call.clone(), Cuts::Every)?;
        }
    }
    Ok(())
}

/// A call without inputs, on many devices.
pub fn command(sweep: &mut Sweep<'_>, call: Call) -> Swept {
    configs(sweep, &call)?;
    for _ in 0..100 {
        sweep.drawn(call.clone(), Cuts::Every)?;
    }
    Ok(())
}

pub fn write_status(sweep: &mut Sweep<'_>) -> Swept {
    (0..=u8::MAX).try_for_each(|sr| sweep.drawn(Call::WriteStatus { sr }, Cuts::Every))
}

pub fn write_status_and_config_register(sweep: &mut Sweep<'_>) -> Swept {
    for (sr, cr) in byte_pairs(sweep.scale) {
        let on = On::Device(Knobs::plain());
        sweep.probe(Call::WriteStatusAndConfigRegister { sr, cr }, on, Cuts::Whole)?;
    }
    for _ in 0..200 {
        let (sr, cr) = (sweep.rng.byte(), sweep.rng.byte());
        sweep.drawn(Call::WriteStatusAndConfigRegister { sr, cr }, Cuts::Every)?;
    }
    Ok(())
}

pub fn read_status_register_1(sweep: &mut Sweep<'_>) -> Swept {
    (0..=u8::MAX).try_for_each(|status| {
        let on = On::Device(Knobs { status, ..Knobs::drawn(&mut sweep.rng) });
        sweep.probe(Call::ReadStatusRegister1, on, Cuts::Every)
    })
}

pub fn read_configuration_register(sweep: &mut Sweep<'_>) -> Swept {
    (0..=u8::MAX).try_for_each(|config_register| {
        let on = On::Device(Knobs { config_register, ..Knobs::drawn(&mut sweep.rng) });
        sweep.probe(Call::ReadConfigurationRegister, on, Cuts::Every)
    })
}

/// Every byte value at each of the id's first `length` places.
pub fn ids(sweep: &mut Sweep<'_>, call: Call, length: usize) -> Swept {
    for place in 0..length {
        for byte in 0..=u8::MAX {
            let mut knobs = Knobs::drawn(&mut sweep.rng);
            knobs.ids[place] = byte;
            let cuts = if byte % 8 == 0 { Cuts::Every } else { Cuts::Whole };
            sweep.probe(call.clone(), On::Device(knobs), cuts)?;
        }
    }
    Ok(())
}

/// A random call of the kinds in this file.
pub fn random(kind: Kind, rng: &mut Rng) -> Call {
    match kind {
        Kind::LinearModeConfig => Call::LinearModeConfig {
            micron: rng.flag(),
            operating_mode: rng.pick(&INSTRUCTIONS),
            two_devices: rng.flag(),
        },
        Kind::Initialize => Call::Initialize {
            src_sel: rng.between(0, 3) as u8,
            ref_clk_div: rng.between(0, 63) as u8,
            baud_rate_div: rng.chance(70).then(|| rng.between(0, 7) as u8),
            phase: rng.flag(),
            polarity: rng.flag(),
        },
        Kind::EnableLinearAddressing => Call::EnableLinearAddressing { config: rng.word() },
        Kind::EnableIoMode => Call::EnableIoMode { dual_flash: rng.flag() },
        Kind::New => {
            let calls = new_calls();
            calls[rng.index(calls.len())].clone()
        }
        Kind::WriteEnable => Call::WriteEnable,
        Kind::WriteDisable => Call::WriteDisable,
        Kind::ClearStatus => Call::ClearStatus,
        Kind::WriteStatus => Call::WriteStatus { sr: rng.byte() },
        Kind::WriteStatusAndConfigRegister => Call::WriteStatusAndConfigRegister { sr: rng.byte(), cr: rng.byte() },
        Kind::ReadStatusRegister1 => Call::ReadStatusRegister1,
        Kind::ReadConfigurationRegister => Call::ReadConfigurationRegister,
        Kind::ReadRdidBase => Call::ReadRdidBase,
        Kind::ReadRdidExtended => Call::ReadRdidExtended,
        _ => Call::Disable,
    }
}
