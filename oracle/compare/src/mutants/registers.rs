//! Wrong settings, wrong register bytes and wrong ids.

use super::edit::{CONFIG, RX_DATA, TX_DATA_ONE, TX_DATA_THREE, TX_DATA_TWO, change_all, change_last, last_to, remove};
use super::{Mutant, input, outcome};
use crate::kind::Kind;
use crate::sides::Outcome;
use call::Call;

const INITIALIZE: &[Kind] = &[Kind::Initialize];
const NEW: &[Kind] = &[Kind::New];
const IDS: &[Kind] = &[Kind::ReadRdidBase, Kind::ReadRdidExtended];
const LONG_ID: &[Kind] = &[Kind::ReadRdidExtended];
const REGISTER_BYTES: &[Kind] = &[Kind::ReadStatusRegister1, Kind::ReadConfigurationRegister];
const COMMANDS: &[Kind] = &[Kind::WriteEnable, Kind::WriteDisable, Kind::ClearStatus];
const UNKNOWN: u32 = 11;

pub const MUTANTS: &[Mutant] = &[
    input("preset_of_the_other_vendor", &[Kind::LinearModeConfig], |call| {
        changed(call, |call| {
            if let Call::LinearModeConfig { micron, .. } = call {
                *micron = !*micron;
            }
        })
    }),
    input("two_devices_ignored", &[Kind::LinearModeConfig], |call| {
        changed(call, |call| {
            if let Call::LinearModeConfig { two_devices, .. } = call {
                *two_devices = false;
            }
        })
    }),
    outcome("loopback_word_missing", INITIALIZE, |_, o| {
        if let Some(at) = last_to(o, 0x38) {
            remove(o, at, 1);
        }
    }),
    outcome("clock_word_without_source", INITIALIZE, |_, o| change_value(o, |word| word & !0x30)),
    outcome("clock_word_not_active", INITIALIZE, |_, o| change_value(o, |word| word & !1)),
    outcome("divisor_field_one_bit_short", INITIALIZE, |_, o| change_value(o, |word| word & !0x2000)),
    input("phase_and_polarity_exchanged", INITIALIZE, |call| {
        changed(call, |call| {
            if let Call::Initialize { phase, polarity, .. } = call {
                std::mem::swap(phase, polarity);
            }
        })
    }),
    outcome("baud_code_one_more", INITIALIZE, |_, o| change_last(o, CONFIG, |word| word + 8)),
    outcome("loopback_for_the_smallest_divisor", INITIALIZE, |case, o| {
        if matches!(case.call, Call::Initialize { baud_rate_div: Some(0), .. }) {
            let call = changed(&case.call, |call| {
                if let Call::Initialize { baud_rate_div, .. } = call {
                    *baud_rate_div = None;
                }
            });
            o.run(&call, case.given(), case.room, case.junk);
        }
    }),
    outcome("fifo_thresholds_exchanged", &[Kind::EnableIoMode], |_, o| {
        let used = o.ended.used;
        for access in o.log()[..used].chunks_exact_mut(2).filter(|access| matches!(access[0], 0x28 | 0x2C)) {
            access[0] ^= 0x04;
        }
    }),
    input("dual_flash_ignored", &[Kind::EnableIoMode], |_| Call::EnableIoMode { dual_flash: false }),
    outcome("io_mode_raises_chip_select", &[Kind::EnableIoMode], |_, o| change_last(o, CONFIG, |word| word | 1 << 10)),
    outcome("linear_mode_keeps_chip_select", &[Kind::EnableLinearAddressing], |_, o| {
        let read = last_to(o, 0x100).map_or(0, |at| o.log()[2 * at + 1]);
        change_last(o, CONFIG, |word| word | read & 1 << 10);
    }),
    outcome("disable_leaves_chip_select_low", &[Kind::Disable], |_, o| {
        change_last(o, CONFIG, |word| word & !(1 << 10))
    }),
    outcome("command_to_the_two_byte_register", COMMANDS, |_, o| change_offset(o, TX_DATA_ONE, TX_DATA_TWO)),
    outcome("status_command_to_the_one_byte_register", REGISTER_BYTES, |_, o| {
        change_offset(o, TX_DATA_TWO, TX_DATA_ONE);
    }),
    outcome("register_byte_from_the_low_byte", REGISTER_BYTES, |_, o| {
        if let Some(at) = last_to(o, RX_DATA) {
            let reply = o.log()[2 * at + 1];
            change_value(o, |_| reply & 0xFF);
        }
    }),
    outcome("status_word_without_bit_7", &[Kind::WriteStatus], |_, o| {
        change_last(o, TX_DATA_TWO, |word| word & !0x8000);
    }),
    input("status_and_config_exchanged", &[Kind::WriteStatusAndConfigRegister], |call| match *call {
        Call::WriteStatusAndConfigRegister { sr, cr } => Call::WriteStatusAndConfigRegister { sr: cr, cr: sr },
        _ => call.clone(),
    }),
    input("quad_bit_ignored", NEW, |call| new_call(call, |quad, _, _| *quad = false)),
    input("latency_ignored", NEW, |call| new_call(call, |_, latency, _| *latency = None)),
    input("latency_0_taken_as_none", NEW, |call| {
        new_call(call, |_, latency, _| *latency = latency.filter(|code| *code != 0))
    }),
    input("protection_kept", NEW, |call| new_call(call, |_, _, protection| *protection = false)),
    outcome("write_disable_bit_kept", NEW, |_, o| {
        let shown = status_shown(o) & 0x80;
        change_all(o, TX_DATA_THREE, |word| word | shown << 8);
    }),
    outcome("config_bit_4_dropped", NEW, |_, o| change_all(o, TX_DATA_THREE, |word| word & !(0x10 << 16))),
    outcome("error_bits_not_written_back", NEW, |_, o| change_all(o, TX_DATA_THREE, |word| word & !0x6000)),
    outcome("id_bytes_shifted", IDS, |_, o| {
        if let [manufacturer, device, ..] = o.ended.values.as_mut_slice() {
            (*manufacturer, *device) = (*device >> 8, (*device & 0xFF) << 8 | *manufacturer);
        }
    }),
    outcome("device_id_bytes_exchanged", IDS, |_, o| {
        if let Some(id) = o.ended.values.get_mut(1) {
            *id = *id >> 8 | (*id & 0xFF) << 8;
        }
    }),
    outcome("unknown_interface_type_accepted", IDS, |_, o| accept_code(o, 2)),
    outcome("unknown_density_accepted", IDS, |_, o| accept_code(o, 3)),
    outcome("unknown_sector_arch_accepted", LONG_ID, |_, o| accept_code(o, 6)),
    outcome("density_19_not_listed", IDS, |_, o| {
        if let [_, id, _, density, ..] = o.ended.values.as_mut_slice()
            && *id & 0xFF == 0x19
        {
            *density = UNKNOWN;
        }
    }),
    outcome("interface_type_21_listed", IDS, |_, o| {
        if let [_, id, interface_type, ..] = o.ended.values.as_mut_slice()
            && *id >> 8 == 0x21
        {
            *interface_type = 0;
        }
    }),
    outcome("model_number_bytes_exchanged", LONG_ID, |_, o| {
        if let Some(number) = o.ended.values.get_mut(8) {
            *number = *number >> 8 | (*number & 0xFF) << 8;
        }
    }),
    outcome("values_of_a_stopped_call", REGISTER_BYTES, |_, o| {
        if o.ended.answer != 0 {
            o.ended.values = vec![0xFF];
        }
    }),
];

fn changed(call: &Call, change: impl Fn(&mut Call)) -> Call {
    let mut call = call.clone();
    change(&mut call);
    call
}

fn new_call(call: &Call, change: impl Fn(&mut bool, &mut Option<u8>, &mut bool)) -> Call {
    changed(call, |call| {
        if let Call::New { set_quad, latency, clear_protection } = call {
            change(set_quad, latency, clear_protection);
        }
    })
}

fn change_value(o: &mut Outcome, change: impl Fn(u32) -> u32) {
    if let [value] = o.ended.values.as_mut_slice() {
        *value = change(*value);
    }
}

fn change_offset(o: &mut Outcome, from: u32, to: u32) {
    let used = o.ended.used;
    for access in o.log()[..used].chunks_exact_mut(2).filter(|access| access[0] == from) {
        access[0] = to;
    }
}

fn accept_code(o: &mut Outcome, place: usize) {
    if let Some(code) = o.ended.values.get_mut(place) {
        *code = 0;
    }
}

/// The status byte that `new` read: the reply before the last write enable.
fn status_shown(o: &mut Outcome) -> u32 {
    let used = o.ended.used;
    let log = &o.log()[..used];
    let enable = log.chunks_exact(2).rposition(|access| access == [TX_DATA_ONE, 0x06]).unwrap_or(0);
    let mut before = log[..2 * enable].chunks_exact(2).rev();
    let transfer = before.by_ref().skip_while(|access| access[0] != 0x14);
    transfer.filter(|access| access[0] == RX_DATA).map(|access| access[1] >> 24).next().unwrap_or(0)
}
