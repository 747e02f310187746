//! The clock calculations of the erased package against the stored output of the program `clock_cases`. The stored answers of
//! the published Rust end at quotient 32; these go to 300.

use verified::zynq7000::slcr::clocks::SrcSelIo;
use verified::zynq7000_hal::clocks::Clocks;
use verified::zynq7000_hal::qspi::{BaudRateConfig, ClockCalculationError, ClockConfig};

const STORED: &str = include_str!("../../../crates/clock_cases/stdout");
const SOURCES: [SrcSelIo; 4] = [SrcSelIo::IoPll, SrcSelIo::IoPllAlt, SrcSelIo::ArmPll, SrcSelIo::DdrPll];

/// As the program shows it.
fn shown(calculation: Result<ClockConfig, ClockCalculationError>) -> String {
    let config = match calculation {
        Err(error) => return format!(" -> {}", error.number()),
        Ok(config) => config,
    };
    let kind = match config.baud_rate_config {
        BaudRateConfig::WithLoopback => "loopback",
        BaudRateConfig::WithoutLoopback(_) => "baud",
    };
    let (source, divisor) = (config.src_sel.raw_value(), config.ref_clk_div);
    format!(" -> source {source} divisor {divisor} {kind} {}", config.baud_rate_config.baud_rate_divisor().divisor())
}

/// A reference clock that is not divided.
fn undivided(reference: u32, interface: u32) -> String {
    let clocks = Clocks { io_ref_clk: reference, arm_ref_clk: 1, ddr_ref_clk: 1, cpu_1x_clk: 0 };
    shown(ClockConfig::calculate(SrcSelIo::IoPll, clocks, reference, interface))
}

fn answered(kind: &str, numbers: &[u32]) -> String {
    let source = |code: u32| SOURCES[code as usize];
    let clocks = |at: &[u32]| Clocks { io_ref_clk: at[0], arm_ref_clk: at[1], ddr_ref_clk: at[2], cpu_1x_clk: at[3] };
    match (kind, numbers) {
        ("calculate", [code, at @ .., target, interface]) => {
            shown(ClockConfig::calculate(source(*code), clocks(at), *target, *interface))
        }
        ("loopback", [code, at @ .., interface]) => {
            shown(ClockConfig::calculate_with_loopback(source(*code), clocks(at), *interface))
        }
        ("quotient", [q]) => undivided(*q, 1) + &undivided((q - 1) * 1000 + 1, 1000) + &undivided(q * 1000, 1000),
        _ => panic!("{kind} {numbers:?}"),
    }
}

#[test]
fn every_stored_line_is_answered() {
    for line in STORED.lines() {
        let (asked, _) = line.split_once(" -> ").expect("a line has an answer");
        let (kind, numbers) = asked.split_once(' ').expect("a line has numbers");
        let numbers: Vec<u32> = numbers.split(' ').map(|n| n.parse().expect("a number")).collect();
        assert_eq!(format!("{asked}{}", answered(kind, &numbers)), line);
    }
    assert_eq!(STORED.lines().filter(|line| line.starts_with("quotient")).count(), 300);
}
