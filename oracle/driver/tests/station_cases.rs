//! The cases of document 01, on the published Rust. It still has the hole in the baud ladder, which document 02 (U3) mends in the
//! port: see `clocks`.

mod common;

use call::{Call, Clocks};
use common::{WRITE_ENABLE_REPLIES, answer, lines, replay, run, run_into, written};

const TX_DATA_00: u32 = 0x1C;

const STATION_CLOCKS: Clocks =
    Clocks { io_ref_clk: 1_000_000_000, arm_ref_clk: 0, ddr_ref_clk: 0, cpu_1x_clk: 111_111_111 };

#[test]
fn write_enable_makes_twelve_accesses() {
    let ran = replay(&Call::WriteEnable, &WRITE_ENABLE_REPLIES, 24);
    assert_eq!((ran.ended.answer, ran.ended.used, ran.ended.replies), (0, 24, 6));
    assert_eq!(
        lines(&ran.log),
        [
            "R 04 00000000",
            "R 00 8008C4C1",
            "W 00 8008C0C1",
            "W 14 00000001",
            "W 80 00000006",
            "R 00 8008C0C1",
            "W 00 8009C0C1",
            "R 04 00000010",
            "R 20 FF000000",
            "R 00 8008C0C1",
            "W 00 8008C4C1",
            "W 14 00000000",
        ]
    );
}

#[test]
fn erase() {
    assert_eq!(answer(&Call::EraseSector { addr: 0xFE_0000 }), 0);
    assert_eq!(refusal(&Call::EraseSector { addr: 0xFF_0000 }), 1);
    assert_eq!(refusal(&Call::EraseSector { addr: 0x03_0004 }), 2);
    let ran = run(&Call::EraseSector { addr: 0x03_0000 });
    assert_eq!(written(&ran.log, TX_DATA_00), [0x0000_03D8]);
}

#[test]
fn program() {
    let program = |addr, length| Call::Program { addr, data: vec![0; length] };
    let ran = run(&Call::Program { addr: 0x100, data: vec![0xDE, 0xAD, 0xBE, 0xEF] });
    assert_eq!((ran.ended.answer, written(&ran.log, TX_DATA_00)), (0, vec![0x0001_0002, 0xEFBE_ADDE]));
    assert_eq!(answer(&program(0xF0, 16)), 0);
    assert_eq!(refusal(&program(0xF0, 20)), 5);
    assert_eq!(refusal(&program(0, 241)), 3);
    assert_eq!(refusal(&program(0, 6)), 4);
    assert_eq!(answer(&program(0xFF_FFFB, 4)), 0);
    assert_eq!(refusal(&program(0xFF_FFFC, 4)), 1);
}

#[test]
fn write_pages() {
    let chunks_sent = |addr, length| {
        let ran = run(&Call::WritePages { addr, data: vec![0; length] });
        let commands = written(&ran.log, TX_DATA_00).into_iter().filter(|word| word & 0xFF == 0x02).count();
        (ran.ended.answer, commands)
    };
    assert_eq!(chunks_sent(0x40, 256), (5, 1));
    assert_eq!(chunks_sent(0xC0, 256), (5, 0));
    assert_eq!(chunks_sent(0, 130), (4, 1));
    assert_eq!(chunks_sent(0xFF_FF00, 256), (1, 0));
    assert_eq!(chunks_sent(0xFF_FE00, 256), (0, 2));
}

#[test]
fn error_bits() {
    let on_device = |reply, call: &Call| driver::run(call, Box::new(common::Prompt::new(reply)), usize::MAX, &mut []);
    let ran = on_device(0x2100_0000, &Call::EraseSector { addr: 0 });
    assert_eq!(ran.ended.answer, 21, "although the device is busy");
    assert_eq!(written(&ran.log, 0x80), [0x06, 0x30, 0x04]);
    let ran = on_device(0x4100_0000, &Call::Program { addr: 0, data: vec![0; 4] });
    assert_eq!(ran.ended.answer, 22, "although the device is busy");
    assert_eq!(written(&ran.log, 0x80), [0x06, 0x30, 0x04]);
}

#[test]
fn reads() {
    let mut buffer = [0xEE; 2];
    let ran = run_into(&Call::ReadPageRead { addr: 0x102, length: 1 }, &mut buffer);
    assert_eq!((ran.ended.answer, buffer), (0, [0, 0xEE]));
    assert_eq!(written(&ran.log, TX_DATA_00), [0x0201_0003, 0]);
    assert_eq!(run(&Call::ReadPageRead { addr: 0x102, length: 0 }).log, []);
    let dummy = run_into(&Call::ReadFastRead { addr: 0x102, dummy_byte: true, length: 2 }, &mut buffer);
    assert_eq!(written(&dummy.log, TX_DATA_00), [0x0201_000B, 0]);
}

#[test]
fn chunks_of_reads() {
    let starts = |dummy_byte, length| {
        let ran = run_into(&Call::ReadFastRead { addr: 0, dummy_byte, length }, &mut vec![0; length]);
        let words = written(&ran.log, TX_DATA_00);
        words.into_iter().filter(|word| *word != 0).map(|word| word.swap_bytes() & 0xFF_FFFF).collect::<Vec<_>>()
    };
    assert_eq!(starts(false, 248), [0]);
    assert_eq!(starts(false, 249), [0, 248]);
    assert_eq!(starts(true, 247), [0]);
    assert_eq!(starts(true, 248), [0, 247]);
}

/// Quotients 40 and 80: the Rust gives 256 and 64, as document 01 has it; in document 02 they become 64 and 128.
#[test]
fn clocks() {
    let calculate = |target_interface| {
        let call = Call::Calculate { src_sel: 0, clocks: STATION_CLOCKS, target_ref: 200_000_000, target_interface };
        let rust = run(&call).ended;
        let by_rule = driver::ruled(&call, &rust).expect("equality has ended");
        [(rust.answer, rust.values), (by_rule.answer, by_rule.values)]
    };
    assert_eq!(calculate(5_000_000), [256, 64].map(|divisor| (0, vec![0, 5, 0, divisor])));
    assert_eq!(calculate(2_500_000), [64, 128].map(|divisor| (0, vec![0, 5, 0, divisor])));
    let loopback = |src_sel, target_interface| {
        run(&Call::CalculateWithLoopback { src_sel, clocks: STATION_CLOCKS, target_interface }).ended
    };
    assert_eq!(loopback(0, 7_936_508).values, [0, 63, 1, 2]);
    assert_eq!(loopback(0, 7_936_507).answer, 6);
    assert_eq!(loopback(2, 1).values, [2, 0, 1, 2], "a loopback reference of 0 is accepted with divisor 0");
}

#[test]
fn reference_below_cpu_1x() {
    let calculate = |cpu_1x_clk| {
        let clocks = Clocks { io_ref_clk: 99, arm_ref_clk: 99, ddr_ref_clk: 99, cpu_1x_clk };
        answer(&Call::Calculate { src_sel: 3, clocks, target_ref: 50, target_interface: 1 })
    };
    assert_eq!(calculate(49), 0, "99 / 2 rounded down");
    assert_eq!(calculate(50), 7);
}

#[test]
fn initialize() {
    let initialize = |baud_rate_div, phase, polarity| {
        run(&Call::Initialize { src_sel: 3, ref_clk_div: 63, baud_rate_div, phase, polarity })
    };
    let ran = initialize(Some(7), false, false);
    assert_eq!((ran.ended.answer, ran.ended.values), (0, vec![63 * 256 + 3 * 16 + 1]));
    assert_eq!(lines(&ran.log), ["W 00 800800F9"]);
    assert_eq!(lines(&initialize(Some(0), true, false).log), ["W 00 800800C5"]);
    assert_eq!(lines(&initialize(None, false, true).log), ["W 00 800800C3", "W 38 00000020"]);
}

#[test]
fn modes_of_the_controller() {
    let ends = |call: &Call| lines(&run(call).log);
    let io_mode = ["R 00 8008C4C1", "W 00 8008C4C1", "W 2C 00000001", "W 28 00000001", "W A0 01A002EB"];
    assert_eq!(ends(&Call::EnableIoMode { dual_flash: false }), io_mode);
    assert_eq!(written(&run(&Call::EnableIoMode { dual_flash: true }).log, 0xA0), [0x61A0_02EB]);
    let linear = ["W 14 00000000", "R 00 8008C4C1", "W 00 800800C1", "W A0 12345678"];
    assert_eq!(ends(&Call::EnableLinearAddressing { config: 0x1234_5678 }), linear);
    assert_eq!(ends(&Call::Disable), ["W 14 00000000", "R 00 8008C4C1", "W 00 8008C4C1"]);
}

#[test]
fn all_presets() {
    let modes = [(0x03, 0x8000_0003), (0x0B, 0x8000_010B), (0x3B, 0x8000_013B), (0x6B, 0x8000_016B)];
    let by_vendor = [(0xBB, [0x82FF_00BB, 0x82FF_01BB]), (0xEB, [0x82FF_02EB, 0x82FF_04EB])];
    let common = modes.map(|(mode, word)| (mode, [word, word]));
    for (operating_mode, words) in common.into_iter().chain(by_vendor) {
        for (micron, word) in [(false, words[0]), (true, words[1])] {
            for (two_devices, add) in [(false, 0), (true, 0x6000_0000)] {
                let ran = run(&Call::LinearModeConfig { micron, operating_mode, two_devices });
                assert_eq!((ran.ended.answer, ran.ended.values), (0, vec![word + add]));
            }
        }
    }
    assert_eq!(answer(&Call::LinearModeConfig { micron: false, operating_mode: 0x04, two_devices: false }), 11);
}

#[test]
fn ids() {
    let values =
        |call: &Call, reply| driver::run(call, Box::new(common::Prompt::new(reply)), usize::MAX, &mut []).ended.values;
    assert_eq!(values(&Call::ReadRdidBase, 0x1902_0100), [0x01, 0x0219, 0, 0]);
    assert_eq!(values(&Call::ReadRdidBase, 0x1A03_0100), [0x01, 0x031A, 11, 11]);
    let long = values(&Call::ReadRdidExtended, 0x0403_0201);
    assert_eq!(long, [0x02, 0x0304, 11, 11, 0x01, 0x02, 11, 0x03, 0x0401]);
}

#[test]
fn registers() {
    let values =
        |call: &Call| driver::run(call, Box::new(common::Prompt::new(0x5A00_0000)), usize::MAX, &mut []).ended.values;
    assert_eq!(values(&Call::ReadStatusRegister1), [0x5A]);
    assert_eq!(values(&Call::ReadConfigurationRegister), [0x5A]);
    assert_eq!(written(&run(&Call::WriteStatus { sr: 0x12 }).log, 0x84), [0x1201]);
    assert_eq!(written(&run(&Call::WriteStatusAndConfigRegister { sr: 0x12, cr: 0x34 }).log, 0x88), [0x34_1201]);
}

#[test]
fn new_writes_only_what_is_missing() {
    let new = |set_quad, latency, clear_protection| run(&Call::New { set_quad, latency, clear_protection }).log;
    assert_eq!(written(&new(false, None, false), 0x80), [0x30]);
    assert_eq!(written(&new(false, None, false), 0x84), []);
    assert_eq!(written(&new(true, None, false), 0x84), [0x35, 0x05]);
    assert_eq!(written(&new(true, None, false), 0x88), [0x02_0001]);
    assert_eq!(written(&new(false, Some(3), false), 0x88), [0xC0_0001]);
    assert_eq!(written(&new(false, Some(0), true), 0x88), []);
}

/// The answer of a call that makes no access.
fn refusal(call: &Call) -> u32 {
    let ran = run(call);
    assert_eq!((ran.log, ran.ended.used, ran.ended.replies), (vec![], 0, 0), "{call:?}");
    ran.ended.answer
}
