//! The clock calculations of the archive against the stored output of the program `clock_cases`, which `tools/clock_cases` makes
//! from documents 01 and 02.

use qspi::{Answer, ClockConfig, Clocks, calculate, calculate_with_loopback};

const STORED: &str = include_str!("../../../crates/clock_cases/stdout");

/// As the program shows it; a refusal has zeros.
fn shown(config: ClockConfig) -> String {
    let ClockConfig { answer, src_sel, ref_clk_div, loopback, baud_rate_divisor } = config;
    if answer != 0 {
        assert_eq!([src_sel, ref_clk_div, loopback, baud_rate_divisor], [0; 4]);
        return format!(" -> {answer}");
    }
    let kind = ["baud", "loopback"][loopback as usize];
    format!(" -> source {src_sel} divisor {ref_clk_div} {kind} {baud_rate_divisor}")
}

/// A reference clock that is not divided.
fn undivided(reference: u32, interface: u32) -> String {
    let clocks = Clocks { io_ref_clk: reference, arm_ref_clk: 1, ddr_ref_clk: 1, cpu_1x_clk: 0 };
    shown(calculate(0, clocks, reference, interface))
}

fn answered(kind: &str, numbers: &[u32]) -> String {
    let clocks = |at: &[u32]| Clocks { io_ref_clk: at[0], arm_ref_clk: at[1], ddr_ref_clk: at[2], cpu_1x_clk: at[3] };
    match (kind, numbers) {
        ("calculate", [src_sel, at @ .., target, interface]) => {
            shown(calculate(*src_sel as u8, clocks(at), *target, *interface))
        }
        ("loopback", [src_sel, at @ .., interface]) => {
            shown(calculate_with_loopback(*src_sel as u8, clocks(at), *interface))
        }
        ("quotient", [q]) => undivided(*q, 1) + &undivided((q - 1) * 1000 + 1, 1000) + &undivided(q * 1000, 1000),
        _ => panic!("{kind} {numbers:?}"),
    }
}

#[test]
fn every_stored_line_is_answered() {
    for line in STORED.lines() {
        let (asked, _) = line.split_once(" -> ").expect("a line has an answer");
        let (kind, numbers) = asked.split_once(' ').expect("a line has numbers");
        let numbers: Vec<u32> = numbers.split(' ').map(|n| n.parse().expect("a number")).collect();
        assert_eq!(format!("{asked}{}", answered(kind, &numbers)), line);
    }
}

#[test]
fn the_lines_have_every_rule_and_every_divisor() {
    let has = |end: String| STORED.lines().any(|line| line.ends_with(&end));
    for refusal in [Answer::RefDivOutOfRange, Answer::RefClockSmallerThanCpu1xClock, Answer::ZeroClock] {
        assert!(has(format!(" -> {}", refusal.number())));
    }
    assert!(has(format!(" -> {}", Answer::TargetTooFast.number())));
    assert!(has(format!(" -> {}", Answer::BaudDivOutOfRange.number())));
    assert!((1..=8).all(|k| has(format!(" baud {}", 1 << k))));
    assert_eq!(STORED.lines().filter(|line| line.starts_with("quotient")).count(), 300);
}
