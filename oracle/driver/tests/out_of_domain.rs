//! What the published Rust does outside of the domain of equality: the smallest input of each kind. With overflow
//! checks (profile `release`) most end in a panic; without (profile `fair`, `cargo test --profile fair`) sums wrap.

mod common;

use std::{hint::black_box, panic};

use arbitrary_int::u3;
use call::{Call, Clocks};
use common::{Prompt, answer, lines, run, run_into, written};
use driver::{PANICKED, Ran};
use recorder::Outcome;

const ADD: &str = "attempt to add with overflow";
const MULTIPLY: &str = "attempt to multiply with overflow";
const DIVIDE: &str = "attempt to divide by zero";

fn overflow_checks() -> bool {
    panic::catch_unwind(|| black_box(u32::MAX) + black_box(1)).is_err()
}

fn assert_panics(ran: &Ran, message: &str) {
    assert_eq!(ran.ended.answer, PANICKED);
    assert_eq!(ran.panic.as_deref(), Some(message));
}

/// Document 01 gives 1. Without checks the sum wraps to 0, and the last sector is erased.
#[test]
fn erase_at_the_end_of_32_bits() {
    assert_eq!(answer(&Call::EraseSector { addr: 0xFFFE_FFFF }), 1, "the last address inside");
    let ran = run(&Call::EraseSector { addr: 0xFFFF_0000 });
    if overflow_checks() {
        assert_panics(&ran, ADD);
        assert_eq!(ran.log, []);
        assert_panics(&run(&Call::EraseSector { addr: 0xFFFF_0001 }), ADD);
    } else {
        assert_eq!((ran.ended.answer, written(&ran.log, 0x1C)), (0, vec![0x0000_FFD8]));
        assert_eq!(answer(&Call::EraseSector { addr: 0xFFFF_0001 }), 2);
    }
}

/// Document 01 gives 1. Without checks the sum wraps to 0, and the last bytes of the array are programmed.
#[test]
fn program_at_the_end_of_32_bits() {
    let calls = |addr| {
        let data = vec![0xFF; 4];
        [Call::Program { addr, data: data.clone() }, Call::WritePages { addr, data }]
    };
    for call in calls(0xFFFF_FFFB) {
        assert_eq!(answer(&call), 1, "the last address inside");
    }
    for call in calls(0xFFFF_FFFC) {
        let ran = run(&call);
        if overflow_checks() {
            assert_panics(&ran, ADD);
            assert_eq!(ran.log, []);
        } else {
            assert_eq!((ran.ended.answer, written(&ran.log, 0x1C)), (0, vec![0xFCFF_FF02, 0xFFFF_FFFF]));
        }
    }
}

/// Document 01 gives 10 where the read goes past 2^32. The Rust adds up the chunk's start alone: a read is made whose
/// last chunk starts below 2^32, and one whose next chunk starts there stops after the chunks before it.
#[test]
fn read_past_32_bits() {
    for length in [2, 248] {
        let within = run_into(&Call::ReadPageRead { addr: 0xFFFF_FFFF, length }, &mut [0xEE; 248]);
        assert_eq!((within.ended.answer, written(&within.log, 0x1C)[0]), (0, 0xFFFF_FF03));
    }
    let cases = [
        (Call::ReadPageRead { addr: 0xFFFF_FF08, length: 249 }, 248, 0x0000_0003),
        (Call::ReadFastRead { addr: 0xFFFF_FF09, dummy_byte: true, length: 248 }, 247, 0x0000_000B),
    ];
    for (call, chunk, second) in cases {
        let mut buffer = [0xEE; 249];
        let ran = run_into(&call, &mut buffer);
        let commands = written(&ran.log, 0x1C).into_iter().filter(|word| *word != 0).collect::<Vec<_>>();
        if overflow_checks() {
            assert_panics(&ran, ADD);
            assert_eq!(commands.len(), 1, "the first chunk is read");
            assert_eq!(lines(&ran.log).last().unwrap(), "W 14 00000000", "and its transfer closed");
            assert_eq!((buffer[chunk - 1], buffer[chunk]), (0, 0xEE));
        } else {
            assert_eq!((ran.ended.answer, commands[1]), (0, second));
        }
    }
}

/// Document 01 gives 9. Without checks the doubled target wraps: 2^31 to 0, the next one to 2.
#[test]
fn loopback_target_past_31_bits() {
    let loopback = |target_interface| {
        let clocks = Clocks { io_ref_clk: 126, arm_ref_clk: 0, ddr_ref_clk: 0, cpu_1x_clk: 0 };
        run(&Call::CalculateWithLoopback { src_sel: 0, clocks, target_interface })
    };
    assert_eq!(loopback(0x7FFF_FFFF).ended.answer, 0, "the last target inside");
    if overflow_checks() {
        assert_panics(&loopback(0x8000_0000), MULTIPLY);
        assert_panics(&loopback(0x8000_0001), MULTIPLY);
    } else {
        assert_panics(&loopback(0x8000_0000), DIVIDE);
        assert_eq!(loopback(0x8000_0001).ended.values, [0, 63, 1, 2]);
    }
}

/// Document 02 gives 64, 128, 256 and 31. The Rust's ladder lacks the rung of 33 to 64, and those above it stand one too low.
#[test]
fn quotients_past_32() {
    let divisor = |quotient| {
        let clocks = Clocks { io_ref_clk: quotient, arm_ref_clk: 0, ddr_ref_clk: 0, cpu_1x_clk: 0 };
        let ran = run(&Call::Calculate { src_sel: 0, clocks, target_ref: quotient, target_interface: 1 });
        assert_eq!((ran.ended.answer, &ran.ended.values[..3]), (0, &[0, 1, 0][..]));
        ran.ended.values[3]
    };
    assert_eq!(divisor(32), 32, "the last quotient inside");
    assert_eq!([33, 64].map(divisor), [256; 2]);
    assert_eq!([65, 128].map(divisor), [64; 2]);
    assert_eq!([129, 256].map(divisor), [128; 2]);
    assert_eq!([257, u32::MAX].map(divisor), [256; 2]);
}

/// Document 01 gives 8, in the order the Rust divides.
#[test]
fn zero_divisors() {
    let clocks = |io_ref_clk, cpu_1x_clk| Clocks { io_ref_clk, arm_ref_clk: 0, ddr_ref_clk: 0, cpu_1x_clk };
    let calculate = |io_ref_clk, cpu_1x_clk, target_ref, target_interface| {
        run(&Call::Calculate { src_sel: 0, clocks: clocks(io_ref_clk, cpu_1x_clk), target_ref, target_interface })
    };
    assert_panics(&run(&Call::CalculateWithLoopback { src_sel: 0, clocks: clocks(1, 1), target_interface: 0 }), DIVIDE);
    assert_panics(&calculate(1, 1, 0, 1), DIVIDE);
    assert_panics(&calculate(0, 1, 1, 1), DIVIDE);
    assert_panics(&calculate(1, 1, 1, 0), DIVIDE);
    assert_eq!(calculate(64, 1, 1, 0).ended.answer, 6, "before the interface target is reached");
    assert_eq!(calculate(1, 2, 1, 0).ended.answer, 7, "before the interface target is reached");
}

/// Document 01 gives 12. In the Rust the types are too narrow: their `new` panics before the call is made.
#[test]
fn fields_too_wide() {
    let too_wide = [
        Call::New { set_quad: false, latency: Some(4), clear_protection: false },
        Call::Initialize { src_sel: 0, ref_clk_div: 64, baud_rate_div: None, phase: false, polarity: false },
    ];
    for call in too_wide {
        let ran = run(&call);
        assert_eq!((ran.ended.answer, ran.log.as_slice()), (PANICKED, &[][..]));
    }
}

/// `set_write_protection` enables writes, opens the transfer that is to write, and reads the status register while
/// that transfer has the `RefCell`: it panics on any input.
#[test]
fn set_write_protection_is_borrowed_twice() {
    let mut flash = driver::new_flash();
    let set = || flash.set_write_protection(u3::new(0));
    let recorded = recorder::record(Box::new(Prompt::new(0)), usize::MAX, set);
    assert!(matches!(recorded.outcome, Outcome::Panicked(message) if message.contains("already borrowed")));
    let lines = lines(&recorded.log);
    assert_eq!(lines.len(), 16);
    assert_eq!(lines[12..], ["R 04 00000000", "R 00 8008C4C1", "W 00 8008C0C1", "W 14 00000001"]);
}
