//! The baud rate divisor, which document 02 (U3) has otherwise than the Rust's ladder: where both are the same, and what stays the
//! Rust's where they are not.

mod common;

use call::{Call, Clocks, Ended};
use common::run;
use driver::{LAST_EQUAL_QUOTIENT, baud_rate_divisor, quotient, ruled};

/// A call with the quotient, by a reference of that many hertz.
fn call(quotient: u32) -> Call {
    let clocks = Clocks { io_ref_clk: quotient, arm_ref_clk: 0, ddr_ref_clk: 0, cpu_1x_clk: 0 };
    Call::Calculate { src_sel: 0, clocks, target_ref: quotient, target_interface: 1 }
}

/// The Rust's own answer, and U3's on it.
fn both(call: &Call) -> (Ended, Option<Ended>) {
    let rust = run(call).ended;
    let by_rule = ruled(call, &rust);
    (rust, by_rule)
}

#[test]
fn the_divisor_is_the_smallest_power_that_is_not_below() {
    let powers = [2, 4, 8, 16, 32, 64, 128, 256];
    for quotient in 1..=300 {
        let smallest = powers.into_iter().find(|power| *power >= quotient);
        assert_eq!(baud_rate_divisor(quotient), smallest.ok_or(31), "{quotient}");
    }
    assert_eq!(baud_rate_divisor(u32::MAX), Err(31));
}

#[test]
fn up_to_32_the_rust_has_the_rule_itself() {
    assert_eq!(LAST_EQUAL_QUOTIENT, 32);
    for number in 1..=32 {
        let (rust, by_rule) = both(&call(number));
        assert_eq!(quotient(&call(number), &rust), Some(number));
        assert_eq!(baud_rate_divisor(number), Ok(rust.values[3]), "{number}");
        assert_eq!(by_rule, None, "{number}");
    }
}

#[test]
fn above_32_the_rust_has_the_rule_nowhere() {
    let quotients = (33..=300).chain([511, 512, 513, 65_536, u32::MAX]);
    for number in quotients {
        let (rust, by_rule) = both(&call(number));
        assert_eq!((rust.answer, rust.values[..3].to_vec()), (0, vec![0, 1, 0]));
        let by_rule = by_rule.expect("equality has ended");
        assert_ne!(by_rule, rust, "{number}");
        match baud_rate_divisor(number) {
            Ok(divisor) => assert_eq!((by_rule.answer, by_rule.values), (0, vec![0, 1, 0, divisor])),
            Err(answer) => assert_eq!((by_rule.answer, by_rule.values), (answer, vec![])),
        }
    }
}

#[test]
fn source_and_divisor_stay_the_rusts() {
    let clocks = Clocks { io_ref_clk: 0, arm_ref_clk: 2520, ddr_ref_clk: 0, cpu_1x_clk: 40 };
    let (rust, by_rule) = both(&Call::Calculate { src_sel: 2, clocks, target_ref: 40, target_interface: 1 });
    assert_eq!(rust.values, [2, 63, 0, 256]);
    assert_eq!(by_rule.map(|ended| (ended.answer, ended.values)), Some((0, vec![2, 63, 0, 64])));
}

#[test]
fn refusals_of_the_rust_come_before_the_rule() {
    let refused = |reference, cpu_1x_clk, target_ref, target_interface| {
        let clocks = Clocks { io_ref_clk: reference, arm_ref_clk: 0, ddr_ref_clk: 0, cpu_1x_clk };
        let (rust, by_rule) = both(&Call::Calculate { src_sel: 1, clocks, target_ref, target_interface });
        assert_eq!(by_rule, None);
        rust.answer
    };
    assert_eq!(refused(64 * 257, 0, 257, 1), 6, "quotient 257");
    assert_eq!(refused(64 * 257, 0, 257, 0), 6, "an interface target of 0");
    assert_eq!(refused(257, 258, 257, 1), 7, "quotient 257");
    assert_eq!(refused(257, 258, 257, 0), 7, "an interface target of 0");
}

#[test]
fn other_calls_have_no_quotient() {
    let clocks = Clocks { io_ref_clk: 126, arm_ref_clk: 0, ddr_ref_clk: 0, cpu_1x_clk: 0 };
    let others = [Call::CalculateWithLoopback { src_sel: 0, clocks, target_interface: 1 }, Call::ReadRdidBase];
    for call in others {
        let (rust, by_rule) = both(&call);
        assert_eq!((rust.values.len(), by_rule), (4, None), "{call:?}");
    }
}
