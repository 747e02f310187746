//! Random calls: at and around every border of document 01, and any numbers whatever.
//! Wide fields, zero clocks, unknown codes and addresses past the array are drawn too.

use crate::rng::Rng;
use replay::call::{Call, ClockCodes};
use verified::zynq7000_hal::clocks::Clocks;

const ARRAY_END: u32 = 0x100_0000;
const SECTOR: u32 = 0x1_0000;

/// Lengths around the cuts of `program` and `write_pages`.
const DATA: [usize; 22] =
    [0, 1, 2, 3, 4, 8, 16, 20, 120, 124, 126, 127, 128, 129, 130, 132, 236, 239, 240, 241, 244, 256];
/// Lengths around the chunks of the reads.
const READS: [usize; 24] =
    [0, 1, 2, 3, 4, 5, 7, 8, 243, 244, 246, 247, 248, 249, 250, 251, 252, 493, 494, 495, 496, 497, 741, 744];

/// Random bytes that the data of a call is a part of, more of them than the array has.
pub(crate) fn slab(seed: u64) -> Vec<u8> {
    let mut rng = Rng::new(seed);
    (0..ARRAY_END / 8 + 64).flat_map(|_| rng.next().to_le_bytes()).collect()
}

/// A call, and the length of the data or of the buffer that it is lent.
pub(crate) fn call(rng: &mut Rng) -> (Call, usize) {
    match rng.below(100) {
        0..6 => (calculate(rng), 0),
        6..11 => (calculate_with_loopback(rng), 0),
        11..48 => (plain(rng), 0),
        48..54 => (Call::EraseSector { addr: sector_address(rng) }, 0),
        54..60 => (Call::EraseSectors, 0),
        60..70 => {
            let length = data_length(rng);
            (Call::Program { addr: address(rng, length) }, length)
        }
        70..82 => {
            let length = pages_length(rng);
            (Call::WritePages { addr: address(rng, length) }, length)
        }
        82..90 => {
            let length = read_length(rng);
            (Call::ReadPageRead { addr: address(rng, length) }, length)
        }
        _ => {
            let length = read_length(rng);
            (Call::ReadFastRead { addr: address(rng, length), dummy_byte: rng.flag() }, length)
        }
    }
}

/// The calls that take codes, a word or nothing.
fn plain(rng: &mut Rng) -> Call {
    match rng.below(17) {
        0 => linear_mode_config(rng),
        1 => initialize(rng),
        2 => Call::EnableLinearAddressing { config: rng.word() },
        3 => Call::EnableIoMode { dual_flash: rng.flag() },
        4 => Call::Disable,
        5 | 6 => new(rng),
        7 => Call::WriteEnable,
        8 => Call::WriteDisable,
        9 => Call::ClearStatus,
        10 => Call::WriteStatus { sr: rng.byte() },
        11 => Call::WriteStatusAndConfigRegister { sr: rng.byte(), cr: rng.byte() },
        12 => Call::ReadStatusRegister1,
        13 => Call::ReadConfigurationRegister,
        14 => Call::ReadRdidBase,
        15 => Call::ReadRdidExtended,
        _ => Call::SetWriteProtection { protection: code(rng, 8) },
    }
}

/// Mostly a code below the end of its field, or the first past it.
fn code(rng: &mut Rng, end: u8) -> u8 {
    match rng.below(10) {
        0 => rng.byte(),
        1 => end,
        2 => end - 1,
        _ => rng.below(end.into()) as u8,
    }
}

fn linear_mode_config(rng: &mut Rng) -> Call {
    let listed = rng.pick(&[0x03, 0x0B, 0x3B, 0x6B, 0xBB, 0xEB]);
    let operating_mode = if rng.chance(80) { listed } else { rng.byte() };
    Call::LinearModeConfig { micron: rng.flag(), operating_mode, two_devices: rng.flag() }
}

/// The binding hands the archive no divisor code with loopback: it is 0 then.
fn initialize(rng: &mut Rng) -> Call {
    let loopback = rng.flag();
    let baud_rate_div = if loopback { 0 } else { code(rng, 8) };
    let clock = ClockCodes { src_sel: code(rng, 4), ref_clk_div: code(rng, 64), loopback, baud_rate_div };
    Call::Initialize { clock, phase: rng.flag(), polarity: rng.flag() }
}

fn new(rng: &mut Rng) -> Call {
    let set_latency = rng.flag();
    Call::New {
        set_quad_bit_if_necessary: rng.flag(),
        set_latency,
        latency: if set_latency { code(rng, 4) } else { 0 },
        clear_write_protection: rng.flag(),
    }
}

/// A frequency: one of a board, one at an end of 32 bits, or any.
fn clock(rng: &mut Rng) -> u32 {
    match rng.below(8) {
        0 => rng.about(0),
        1 => rng.about(0x8000_0000),
        2 => rng.sized(),
        3 => rng.word(),
        _ => rng.pick(&[1_000_000_000, 1_333_333_333, 1_066_666_666, 111_111_111, 33_333_333, 200_000_000]),
    }
}

fn clocks(rng: &mut Rng) -> Clocks {
    Clocks { io_ref_clk: clock(rng), arm_ref_clk: clock(rng), ddr_ref_clk: clock(rng), cpu_1x_clk: clock(rng) }
}

fn reference(clocks: Clocks, src_sel: u8) -> u32 {
    match src_sel {
        0 | 1 => clocks.io_ref_clk,
        2 => clocks.arm_ref_clk,
        _ => clocks.ddr_ref_clk,
    }
}

/// A target by which the clock, divided and rounded up, gives about this quotient.
fn target(rng: &mut Rng, clock: u32, quotient: u32) -> u32 {
    let quotient = rng.about(quotient).max(1);
    rng.about(clock / quotient)
}

fn calculate(rng: &mut Rng) -> Call {
    let (src_sel, mut clocks) = (code(rng, 4), clocks(rng));
    let reference = reference(clocks, src_sel);
    let divisor = rng.pick(&[1, 1, 2, 5, 8, 62, 63, 64]);
    let ref_target = if rng.chance(15) { clock(rng) } else { target(rng, reference, divisor) };
    let divided = reference / reference.div_ceil(ref_target.max(1)).max(1);
    clocks.cpu_1x_clk = match rng.below(4) {
        0 => rng.about(divided),
        1 => clocks.cpu_1x_clk,
        _ => divided / 2,
    };
    let rung = rng.pick(&[1, 2, 3, 4, 5, 8, 9, 16, 17, 32, 33, 64, 65, 128, 129, 256, 257]);
    let interface_target = if rng.chance(15) { clock(rng) } else { target(rng, divided, rung) };
    Call::Calculate {
        src_sel,
        clocks,
        target_qspi_ref_clock: ref_target,
        target_qspi_interface_clock: interface_target,
    }
}

fn calculate_with_loopback(rng: &mut Rng) -> Call {
    let (src_sel, clocks) = (code(rng, 4), clocks(rng));
    let half = reference(clocks, src_sel) / 2;
    let divisor = rng.pick(&[1, 2, 7, 62, 63, 64]);
    let interface_target = match rng.below(6) {
        0 => clock(rng),
        1 => rng.about(0x7FFF_FFFF),
        _ => target(rng, half, divisor),
    };
    Call::CalculateWithLoopback { src_sel, clocks, target_qspi_interface_clock: interface_target }
}

/// Of one page program; now and then more than the array has.
fn data_length(rng: &mut Rng) -> usize {
    match rng.below(100) {
        0..2 => past_the_array(rng),
        2..10 => rng.below(300),
        10..60 => rng.below(61) * 4,
        _ => rng.pick(&DATA),
    }
}

fn pages_length(rng: &mut Rng) -> usize {
    match rng.below(100) {
        0..2 => past_the_array(rng),
        2..5 => rng.below(5000),
        5..10 => rng.below(1250) * 4,
        10..70 => rng.below(6) * 128 + rng.pick(&[0, 0, 4, 64, 124]),
        _ => rng.below(6) * 128 + rng.pick(&DATA),
    }
}

fn past_the_array(rng: &mut Rng) -> usize {
    ARRAY_END as usize + 3 - rng.below(8)
}

fn read_length(rng: &mut Rng) -> usize {
    match rng.below(100) {
        0..8 => rng.below(5000),
        8..50 => rng.below(80),
        _ => rng.pick(&READS),
    }
}

/// Addresses at which a length ends about where a limit is, or any.
fn address(rng: &mut Rng, length: usize) -> u32 {
    let page = rng.word() % ARRAY_END / 256 * 256;
    let length = length as u32;
    match rng.below(20) {
        0 => rng.word(),
        1 => rng.sized(),
        2 | 3 => rng.about((ARRAY_END - 1).wrapping_sub(length)),
        4 => rng.about(0_u32.wrapping_sub(length)),
        5 => rng.about(ARRAY_END),
        6 | 7 => rng.about(page.wrapping_sub(length)),
        8 | 9 => page.wrapping_sub(length).wrapping_add(rng.pick(&[0, 4, 8, 128])),
        10..13 => page + rng.pick(&[4, 16, 64, 128, 192, 240]),
        13 => 0,
        _ => page,
    }
}

fn sector_address(rng: &mut Rng) -> u32 {
    let sector = rng.below(0x100) as u32 * SECTOR;
    match rng.below(10) {
        0 => rng.word(),
        1 => rng.about(ARRAY_END - SECTOR),
        2 => rng.about(ARRAY_END),
        3 => rng.about(0_u32.wrapping_sub(SECTOR)),
        4 => rng.about(sector),
        5 => sector + (1 << rng.below(16)),
        6 => ARRAY_END - 2 * SECTOR,
        _ => sector,
    }
}

/// Different sectors, of which some lists have entries that are refused, a repeated one, or more than a list may have.
pub(crate) fn list(rng: &mut Rng) -> Vec<u32> {
    let length = list_length(rng);
    let (first, step) = (rng.below(255), rng.pick(&[1, 2, 7, 251]));
    let mut list: Vec<u32> = (0..length).map(|at| ((first + at * step) % 255) as u32 * SECTOR).collect();
    if !list.is_empty() && rng.chance(30) {
        spoil(rng, &mut list);
    }
    list
}

/// 255 is as many as there are, 256 as many as a list may have.
fn list_length(rng: &mut Rng) -> usize {
    match rng.below(100) {
        0..3 => rng.pick(&[254, 255, 256, 257, 258, 1000]),
        3..10 => rng.below(60),
        10..15 => 0,
        _ => 1 + rng.below(6),
    }
}

/// Puts a sector at another place again, or an address that may be refused.
fn spoil(rng: &mut Rng, list: &mut [u32]) {
    for _ in 0..1 + rng.below(3) {
        let (at, from) = (rng.below(list.len()), rng.below(list.len()));
        list[at] = if rng.flag() { list[from] } else { sector_address(rng) };
    }
}
