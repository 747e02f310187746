//! Clock calculations and presets.

use super::List;
use call::{Call, Clocks};

/// Both ends of each rung up to quotient 32, where equality with the Rust ends (document 02, U3).
const QUOTIENTS: [u32; 10] = [1, 2, 3, 4, 5, 8, 9, 16, 17, 32];

/// Interface target and divisor.
const TARGETS: [(u32, u32); 3] = [(6_250, 2), (1000, 63), (3, 7)];

const INSTRUCTIONS: [u8; 6] = [0x03, 0x0B, 0x3B, 0x6B, 0xBB, 0xEB];

/// The last loopback target in the domain of equality.
const LOOPBACK_MAX: u32 = 2_147_483_647;

pub fn add(list: &mut List) {
    quotients(list);
    calculations(list);
    loopbacks(list);
    presets(list);
}

/// Other clocks for the sources that are not asked for, so that a wrong one shows.
fn clocks(src_sel: u8, reference: u32, cpu_1x_clk: u32) -> Clocks {
    let mut clocks =
        Clocks { io_ref_clk: 1_000_000_000, arm_ref_clk: 1_333_333_333, ddr_ref_clk: 1_066_666_667, cpu_1x_clk };
    match src_sel {
        0 | 1 => clocks.io_ref_clk = reference,
        2 => clocks.arm_ref_clk = reference,
        _ => clocks.ddr_ref_clk = reference,
    }
    clocks
}

/// The largest and the smallest divided reference of each quotient.
fn quotients(list: &mut List) {
    for (i, quotient) in QUOTIENTS.into_iter().enumerate() {
        for (target, divisor) in TARGETS {
            for divided in [quotient * target, (quotient - 1) * target + 1] {
                let src_sel = (i % 3 + 1) as u8;
                let clocks = clocks(src_sel, divided * divisor, divided / 2);
                list.pure(Call::Calculate { src_sel, clocks, target_ref: divided, target_interface: target });
            }
        }
    }
}

/// Document 01's clocks, the divisor's limit, cpu_1x around the divided reference, and large numbers. Interface targets keep the
/// quotient at most 32; behind a refusal there is none, whatever the target is, 0 included.
fn calculations(list: &mut List) {
    let rows = [
        // Reference, cpu_1x, reference target, interface target.
        (1_000_000_000, 111_111_111, 200_000_000, 6_250_000),
        (1_000_000_000, 111_111_111, 200_000_000, 100_000_000),
        (62_000, 0, 1000, 1000),
        (62_001, 0, 1000, 1000),
        (63_000, 0, 1000, 1000),
        (63_001, 0, 1000, 1000),
        (64_000, 0, 1000, 1000),
        (64_001, 0, 1000, 0),
        (2000, 1000, 1000, 100),
        (2000, 1001, 1000, 100),
        (2001, 667, 1000, 100),
        (2001, 668, 1000, 1),
        (1999, 999, 1000, 100),
        (1999, 1000, 1000, 0),
        (1, 1, 1, 1),
        (1, 2, 1, 1),
        (32, 0, 32, 1),
        (u32::MAX, u32::MAX, u32::MAX, 134_217_728),
        (u32::MAX, 0, u32::MAX, u32::MAX),
        (u32::MAX, 0, u32::MAX / 63 + 1, 2_130_441),
        (u32::MAX, 0, u32::MAX / 64, 1),
        (u32::MAX, u32::MAX, 2_147_483_648, 1),
    ];
    for (i, (reference, cpu_1x_clk, target_ref, target_interface)) in rows.into_iter().enumerate() {
        let src_sel = (i % 4) as u8;
        let clocks = clocks(src_sel, reference, cpu_1x_clk);
        list.pure(Call::Calculate { src_sel, clocks, target_ref, target_interface });
    }
}

fn loopbacks(list: &mut List) {
    let rows = [
        // Reference, interface target.
        (1_000_000_000, 7_936_508),
        (1_000_000_000, 7_936_507),
        (1_000_000_000, 100_000_000),
        (1_000_000_000, 500_000_000),
        (0, 1),
        (0, LOOPBACK_MAX),
        (1, 1),
        (2, 1),
        (3, 1),
        (126, 1),
        (127, 1),
        (128, 1),
        (126_000, 1000),
        (126_001, 1000),
        (124_000, 1000),
        (124_001, 1000),
        (u32::MAX, LOOPBACK_MAX),
        (u32::MAX, LOOPBACK_MAX - 1),
        (u32::MAX - 1, LOOPBACK_MAX),
        (u32::MAX, 34_087_042),
        (u32::MAX, 34_087_043),
        (u32::MAX, 1),
    ];
    for (i, (reference, target_interface)) in rows.into_iter().enumerate() {
        let src_sel = (i % 4) as u8;
        let clocks = clocks(src_sel, reference, 111_111_111);
        list.pure(Call::CalculateWithLoopback { src_sel, clocks, target_interface });
    }
}

/// All 24.
fn presets(list: &mut List) {
    for operating_mode in INSTRUCTIONS {
        for flags in 0..4 {
            let (micron, two_devices) = (flags & 1 != 0, flags & 2 != 0);
            list.pure(Call::LinearModeConfig { micron, operating_mode, two_devices });
        }
    }
}

#[cfg(test)]
mod tests {
    use super::*;
    use crate::answer::{Case, answered};
    use std::collections::BTreeSet;

    /// The quotient of a case by the Rust's answer.
    fn quotient(case: &Case) -> Option<u32> {
        driver::quotient(&case.call, &answered(case).ended)
    }

    /// Quotient, divided reference and interface target of a case that has a quotient.
    fn numbers(case: &Case) -> (u32, u32, u32) {
        match &case.call {
            Call::Calculate { src_sel, clocks, target_ref, target_interface } => {
                let reference = clocks.reference(*src_sel);
                let divided = reference / reference.div_ceil(*target_ref);
                (quotient(case).expect("it is not refused"), divided, *target_interface)
            }
            other => panic!("{other:?}"),
        }
    }

    /// The rungs up to quotient 32.
    const RUNGS: [[u32; 2]; 5] = [[1, 2], [3, 4], [5, 8], [9, 16], [17, 32]];

    #[test]
    fn every_rung_is_there_with_both_ends() {
        let mut list = List { cases: Vec::new() };
        quotients(&mut list);
        let reached: Vec<_> = list.cases.iter().map(numbers).collect();
        let of = |end: fn(u32, u32, u32) -> bool| {
            let at_end = reached.iter().filter(|(quotient, divided, target)| end(*quotient, *divided, *target));
            at_end.map(|(quotient, _, target)| (*quotient, *target)).collect::<BTreeSet<_>>()
        };
        let all = RUNGS.iter().flatten().flat_map(|quotient| TARGETS.map(|(target, _)| (*quotient, target))).collect();
        assert_eq!(of(|quotient, divided, target| divided == quotient * target), all);
        assert_eq!(of(|quotient, divided, target| divided == (quotient - 1) * target + 1), all);
    }

    #[test]
    fn no_quotient_is_above_32() {
        let quotients: BTreeSet<u32> = crate::cases::all().iter().filter_map(quotient).collect();
        assert_eq!((quotients.first(), quotients.last()), (Some(&1), Some(&32)));
    }
}
