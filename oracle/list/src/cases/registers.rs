//! Calls on registers of the controller and of the flash chip.

use super::List;
use crate::device::Manner;
use crate::words::{IDLE_CONFIG, ODD_CONFIGS};
use call::Call;

/// Status and configuration register bytes on which `new` is tried: with each protection, with and without the quad bit, with
/// each latency code, and with all bits that it has to keep.
const REGISTERS: [(u8, u8); 8] =
    [(0x00, 0x00), (0x1C, 0x02), (0x84, 0x40), (0x08, 0x82), (0x90, 0xC0), (0xE3, 0xFD), (0xFF, 0x3F), (0x62, 0xC2)];

pub fn add(list: &mut List) {
    initialize(list);
    low_level(list);
    new(list);
    commands(list);
    write_registers(list);
    read_registers(list);
    ids(list);
}

fn initialize(list: &mut List) {
    for code in 0..16 {
        let baud_rate_div = if code < 12 { Some(code % 8) } else { None };
        let call = Call::Initialize {
            src_sel: code % 4,
            ref_clk_div: [0, 1, 62, 63][usize::from(code / 4)],
            baud_rate_div,
            phase: code & 1 != 0,
            polarity: code & 2 != 0,
        };
        list.whole(call, Manner::plain());
    }
    let loopback = Call::Initialize { src_sel: 3, ref_clk_div: 5, baud_rate_div: None, phase: true, polarity: false };
    list.every_cut(loopback, Manner::plain(), 1);
    let without =
        Call::Initialize { src_sel: 2, ref_clk_div: 63, baud_rate_div: Some(7), phase: false, polarity: true };
    list.every_cut(without, Manner::plain(), 1);
}

fn configs() -> impl Iterator<Item = Manner> {
    let configs = [IDLE_CONFIG].into_iter().chain(ODD_CONFIGS);
    configs.map(|config| Manner { config, ..Manner::plain() })
}

fn low_level(list: &mut List) {
    for config in [0, 0xFFFF_FFFF, 0x8000_016B, 0xE2FF_04EB, 0x5A5A_A5A5] {
        list.whole(Call::EnableLinearAddressing { config }, Manner::plain());
    }
    let calls = [
        Call::EnableLinearAddressing { config: 0x8000_0003 },
        Call::EnableIoMode { dual_flash: false },
        Call::EnableIoMode { dual_flash: true },
        Call::Disable,
    ];
    for call in calls {
        for manner in configs() {
            list.whole(call.clone(), manner);
        }
        list.every_cut(call, Manner::plain(), 1);
    }
}

/// Each of the 20 configurations on four pairs of register bytes.
fn new(list: &mut List) {
    let latencies = [None, Some(0), Some(1), Some(2), Some(3)];
    for (i, latency) in latencies.into_iter().enumerate() {
        for flags in 0..4 {
            let call = Call::New { set_quad: flags & 1 != 0, latency, clear_protection: flags & 2 != 0 };
            for place in 0..4 {
                let (status, config_register) = REGISTERS[(2 * place + i) % REGISTERS.len()];
                list.whole(call.clone(), Manner { config_register, ..Manner::status(&[status]) });
            }
        }
    }
    // All asked for, and nothing to write.
    let all = Call::New { set_quad: true, latency: Some(3), clear_protection: true };
    list.whole(all.clone(), Manner { config_register: 0xC2, ..Manner::status(&[0x62]) });
    list.whole(all, Manner { config_register: 0xFF, ..Manner::status(&[0xE3]) });
    let call = Call::New { set_quad: true, latency: Some(2), clear_protection: true };
    let manner = Manner { config_register: 0xFD, ..Manner::status(&[0xFF]) };
    for _ in 0..4 {
        list.cut(call.clone(), manner.clone().slow());
    }
    list.every_cut(call, manner, 7);
}

/// Commands without inputs; one of them cut at every place.
fn commands(list: &mut List) {
    for call in [Call::WriteEnable, Call::WriteDisable, Call::ClearStatus] {
        for manner in configs() {
            list.whole(call.clone(), manner);
        }
        list.whole(call.clone(), Manner { waiting: 5, ..Manner::plain() });
        list.cut(call.clone(), Manner::plain());
        list.cut(call, Manner::plain().slow());
    }
    list.every_cut(Call::WriteEnable, Manner { waiting: 1, ..Manner::plain() }, 1);
    list.both_end(Call::WriteEnable, Manner { waiting: 1, ..Manner::plain() });
}

fn write_registers(list: &mut List) {
    for (sr, cr) in [(0x00, 0x00), (0xFF, 0xFF), (0x1C, 0x02), (0xE3, 0xFD), (0x80, 0x01)] {
        list.whole(Call::WriteStatus { sr }, Manner::plain());
        list.whole(Call::WriteStatusAndConfigRegister { sr, cr }, Manner::plain());
    }
    for _ in 0..3 {
        list.cut(Call::WriteStatus { sr: 0x9C }, Manner::plain().slow());
        list.cut(Call::WriteStatusAndConfigRegister { sr: 0x9C, cr: 0xC2 }, Manner::plain().slow());
    }
}

fn read_registers(list: &mut List) {
    for byte in [0x00, 0x01, 0x20, 0x40, 0x9F, 0xC2, 0xFF] {
        list.whole(Call::ReadStatusRegister1, Manner::status(&[byte]));
        list.whole(Call::ReadConfigurationRegister, Manner { config_register: byte, ..Manner::plain() });
    }
    for _ in 0..3 {
        list.cut(Call::ReadStatusRegister1, Manner::status(&[0x61]).slow());
        list.cut(Call::ReadConfigurationRegister, Manner { config_register: 0x3F, ..Manner::plain() }.slow());
    }
}

/// Listed codes and unknown ones in each field, and bytes that show their place.
fn ids(list: &mut List) {
    let rows = [
        [0x01, 0x02, 0x19, 0x4D, 0x01, 0x80, b'R', b'0'],
        [0x01, 0x20, 0x18, 0x4D, 0x00, 0x80, b'R', b'1'],
        [0x01, 0x03, 0x19, 0x4D, 0x01, 0x80, b'R', b'0'],
        [0x01, 0x02, 0x1A, 0x4D, 0x00, 0x80, b'R', b'0'],
        [0x01, 0x20, 0x17, 0x4D, 0x02, 0x80, b'R', b'0'],
        [0xA1, 0xB2, 0xC3, 0xD4, 0xE5, 0xF6, 0x97, 0x88],
        [0x00, 0x00, 0x00, 0x00, 0x00, 0x00, 0x00, 0x00],
        [0xFF, 0xFF, 0xFF, 0xFF, 0xFF, 0xFF, 0xFF, 0xFF],
    ];
    for ids in rows {
        list.whole(Call::ReadRdidBase, Manner { ids, ..Manner::plain() });
        list.whole(Call::ReadRdidExtended, Manner { ids, ..Manner::plain() });
    }
    for _ in 0..3 {
        list.cut(Call::ReadRdidBase, Manner::plain().slow());
        list.cut(Call::ReadRdidExtended, Manner::plain().slow());
    }
    list.every_cut(Call::ReadRdidExtended, Manner::plain(), 5);
}
