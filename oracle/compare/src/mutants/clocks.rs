//! Wrong clock calculations.

use super::edit::{answer, refuse};
use super::{Mutant, input, outcome};
use crate::domain;
use crate::kind::Kind;
use crate::sides::{Case, Outcome};
use call::Call;

const CALCULATE: &[Kind] = &[Kind::Calculate];
const LOOPBACK: &[Kind] = &[Kind::CalculateWithLoopback];
const BOTH: &[Kind] = &[Kind::Calculate, Kind::CalculateWithLoopback];

const SOURCE: usize = 0;
const DIVISOR: usize = 1;
const WITH_LOOPBACK: usize = 2;
const BAUD_RATE_DIVISOR: usize = 3;

pub const MUTANTS: &[Mutant] = &[
    outcome("published_ladder_without_the_rule", CALCULATE, |case, o| {
        o.ended = driver::run(&case.call, Box::new(driver::Replies::new([])), 0, &mut []).ended;
    }),
    outcome("quotients_33_to_64_give_256", CALCULATE, |case, o| ladder(case, o, 33, 64, 256)),
    outcome("quotients_65_to_128_give_64", CALCULATE, |case, o| ladder(case, o, 65, 128, 64)),
    outcome("quotients_129_to_256_give_128", CALCULATE, |case, o| ladder(case, o, 129, 256, 128)),
    outcome("quotients_above_256_give_256", CALCULATE, |case, o| accept(case, o, 257, u32::MAX, 256)),
    outcome("quotient_1_gives_1", CALCULATE, |case, o| ladder(case, o, 1, 1, 1)),
    outcome("quotient_2_gives_4", CALCULATE, |case, o| ladder(case, o, 2, 2, 4)),
    outcome("quotient_4_gives_8", CALCULATE, |case, o| ladder(case, o, 4, 4, 8)),
    outcome("quotient_8_gives_16", CALCULATE, |case, o| ladder(case, o, 8, 8, 16)),
    outcome("quotient_16_gives_32", CALCULATE, |case, o| ladder(case, o, 16, 16, 32)),
    outcome("quotient_32_gives_64", CALCULATE, |case, o| ladder(case, o, 32, 32, 64)),
    outcome("quotient_64_gives_128", CALCULATE, |case, o| ladder(case, o, 64, 64, 128)),
    outcome("quotient_128_gives_256", CALCULATE, |case, o| ladder(case, o, 128, 128, 256)),
    outcome("quotient_256_refused", CALCULATE, |case, o| {
        if domain::quotient(&case.call) == Some(256) {
            refuse(o, 31);
        }
    }),
    outcome("quotient_3_gives_2", CALCULATE, |case, o| ladder(case, o, 3, 3, 2)),
    outcome("quotient_5_gives_4", CALCULATE, |case, o| ladder(case, o, 5, 5, 4)),
    outcome("quotient_9_gives_8", CALCULATE, |case, o| ladder(case, o, 9, 9, 8)),
    outcome("quotient_17_gives_16", CALCULATE, |case, o| ladder(case, o, 17, 17, 16)),
    outcome("quotient_33_gives_32", CALCULATE, |case, o| ladder(case, o, 33, 33, 32)),
    outcome("quotient_65_gives_64", CALCULATE, |case, o| ladder(case, o, 65, 65, 64)),
    outcome("quotient_129_gives_128", CALCULATE, |case, o| ladder(case, o, 129, 129, 128)),
    outcome("quotient_257_gives_256", CALCULATE, |case, o| accept(case, o, 257, 257, 256)),
    outcome("quotient_65536_gives_2", CALCULATE, |case, o| accept(case, o, 65_536, 65_536, 2)),
    outcome("quotient_rounded_down_to_256", CALCULATE, |case, o| {
        if divided_and_target(&case.call).is_some_and(|(divided, target)| divided / target == 256) {
            accept(case, o, 257, 257, 256);
        }
    }),
    outcome("refusal_31_before_6", CALCULATE, |case, o| answer(case, o, 6, 31, above_256)),
    outcome("refusal_31_before_7", CALCULATE, |case, o| answer(case, o, 7, 31, above_256)),
    outcome("refusal_31_answered_as_6", CALCULATE, |case, o| answer(case, o, 31, 6, |_| true)),
    outcome("refusal_31_with_values_left", CALCULATE, |case, o| {
        if o.ended.answer == 31 {
            accept(case, o, 257, u32::MAX, 256);
            o.ended.answer = 31;
        }
    }),
    outcome("alternative_source_lost_above_quotient_32", CALCULATE, |case, o| {
        if !domain::rust_alone(&case.call) && o.ended.values.first() == Some(&1) {
            change(o, SOURCE, 0);
        }
    }),
    outcome("divisor_lost_above_quotient_32", CALCULATE, |case, o| {
        if !domain::rust_alone(&case.call) {
            change(o, DIVISOR, 1);
        }
    }),
    outcome("loopback_said_above_quotient_32", CALCULATE, |case, o| {
        if !domain::rust_alone(&case.call) {
            change(o, WITH_LOOPBACK, 1);
        }
    }),
    outcome("divisor_rounded_down", BOTH, |case, o| {
        let (reference, target) = reference_and_target(&case.call);
        change(o, DIVISOR, (u64::from(reference) / target) as u32);
    }),
    outcome("quotient_rounded_down", CALCULATE, |case, o| {
        if let Some((divided, target)) = divided_and_target(&case.call)
            && divided / target == 2
        {
            change(o, BAUD_RATE_DIVISOR, 2);
        }
    }),
    outcome("divisor_63_refused", BOTH, |_, o| {
        if o.ended.values.get(DIVISOR) == Some(&63) {
            refuse(o, 6);
        }
    }),
    outcome("divisor_64_accepted", BOTH, |case, o| {
        let (reference, target) = reference_and_target(&case.call);
        if u64::from(reference).div_ceil(target) == 64 {
            o.ended.answer = 0;
            o.ended.values = vec![0, 64, 0, 2];
        }
    }),
    outcome("cpu_1x_equal_refused", CALCULATE, |case, o| {
        let Call::Calculate { clocks, .. } = &case.call else {
            return;
        };
        let equal = divided_and_target(&case.call).is_some_and(|(divided, _)| divided == clocks.cpu_1x_clk);
        if equal && o.ended.answer == 0 {
            refuse(o, 7);
        }
    }),
    outcome("cpu_1x_not_tested", CALCULATE, |case, o| {
        if o.ended.answer == 7 {
            let mut call = case.call.clone();
            if let Call::Calculate { clocks, .. } = &mut call {
                clocks.cpu_1x_clk = 0;
            }
            o.run(&call, &[], case.room, case.junk);
        }
    }),
    outcome("cpu_1x_tested_with_loopback", LOOPBACK, |case, o| {
        if let Call::CalculateWithLoopback { src_sel, clocks, .. } = &case.call
            && o.ended.answer == 0
            && clocks.reference(*src_sel) < clocks.cpu_1x_clk
        {
            refuse(o, 7);
        }
    }),
    outcome("refusals_6_and_7_exchanged", CALCULATE, |_, o| {
        o.ended.answer = match o.ended.answer {
            6 => 7,
            7 => 6,
            other => other,
        };
    }),
    outcome("ratio_tested_before_the_divisor", CALCULATE, |case, o| {
        answer(
            case,
            o,
            6,
            7,
            |case| matches!(&case.call, Call::Calculate { src_sel, clocks, .. } if clocks.reference(*src_sel) < clocks.cpu_1x_clk),
        );
    }),
    outcome("alternative_source_answered_as_first", BOTH, |_, o| {
        if o.ended.values.first() == Some(&1) {
            change(o, SOURCE, 0);
        }
    }),
    input("arm_and_ddr_clocks_exchanged", BOTH, |call| {
        let mut call = call.clone();
        if let Call::Calculate { clocks, .. } | Call::CalculateWithLoopback { clocks, .. } = &mut call {
            (clocks.arm_ref_clk, clocks.ddr_ref_clk) = (clocks.ddr_ref_clk, clocks.arm_ref_clk);
        }
        call
    }),
    outcome("loopback_not_said", LOOPBACK, |_, o| change(o, WITH_LOOPBACK, 0)),
    input("loopback_target_not_doubled", LOOPBACK, |call| {
        let mut call = call.clone();
        if let Call::CalculateWithLoopback { target_interface, .. } = &mut call {
            *target_interface = target_interface.div_ceil(2);
        }
        call
    }),
    outcome("loopback_reference_0_refused", LOOPBACK, |_, o| {
        if o.ended.values.get(DIVISOR) == Some(&0) {
            refuse(o, 8);
        }
    }),
];

/// The reference clock and its target; with loopback the target is twice the interface's.
fn reference_and_target(call: &Call) -> (u32, u64) {
    match call {
        Call::Calculate { src_sel, clocks, target_ref, .. } => (clocks.reference(*src_sel), u64::from(*target_ref)),
        Call::CalculateWithLoopback { src_sel, clocks, target_interface } => {
            (clocks.reference(*src_sel), 2 * u64::from(*target_interface))
        }
        _ => (0, 1),
    }
}

/// The divided reference clock and the interface target, where neither divides by 0.
fn divided_and_target(call: &Call) -> Option<(u32, u32)> {
    let Call::Calculate { target_interface, .. } = call else {
        return None;
    };
    let (reference, target) = reference_and_target(call);
    let divisor = u64::from(reference).div_ceil(target) as u32;
    let divided = reference.checked_div(divisor)?;
    (*target_interface != 0).then_some((divided, *target_interface))
}

/// A quotient above 256, as if no refusal came before it.
fn above_256(case: &Case) -> bool {
    divided_and_target(&case.call).is_some_and(|(divided, target)| divided.div_ceil(target) > 256)
}

/// Quotients from `low` to `high` get the divisor `to`.
fn ladder(case: &Case, o: &mut Outcome, low: u32, high: u32, to: u32) {
    if domain::quotient(&case.call).is_some_and(|quotient| (low..=high).contains(&quotient)) {
        change(o, BAUD_RATE_DIVISOR, to);
    }
}

/// Quotients from `low` to `high`, which 31 refuses, get the divisor `to`.
fn accept(case: &Case, o: &mut Outcome, low: u32, high: u32, to: u32) {
    if let Call::Calculate { src_sel, target_ref, .. } = &case.call
        && domain::quotient(&case.call).is_some_and(|quotient| (low..=high).contains(&quotient))
    {
        let (reference, _) = reference_and_target(&case.call);
        o.ended.answer = 0;
        o.ended.values = vec![u32::from(*src_sel), reference.div_ceil(*target_ref), 0, to];
    }
}

fn change(o: &mut Outcome, place: usize, to: u32) {
    if let Some(value) = o.ended.values.get_mut(place) {
        *value = to;
    }
}

/// What the smallest `calculate` that catches a wrong port is called with, to be read beside its difference.
pub fn numbers(call: &Call) -> String {
    let Call::Calculate { src_sel, clocks, target_ref, target_interface } = call else {
        return String::new();
    };
    let (reference, cpu_1x) = (clocks.reference(*src_sel), clocks.cpu_1x_clk);
    format!(" (reference {reference}, cpu_1x {cpu_1x}, targets {target_ref} and {target_interface})")
}

#[cfg(test)]
mod tests {
    use super::*;
    use crate::comparison::Comparison;
    use crate::options::Options;
    use crate::shrink::shrink;

    /// The smallest call that a wrong port is caught by: reference, cpu_1x and both targets.
    fn smallest(name: &str) -> [u32; 4] {
        let mutant = MUTANTS.iter().find(|mutant| mutant.name == name).expect("a wrong port");
        let arguments = ["--calls", "0", "--kinds", "calculate"].map(String::from);
        let options = Options::parse(arguments.into_iter()).expect("arguments");
        let mut comparison = Comparison::new(&options, Some(mutant));
        let found = *comparison.run().expect_err("caught");
        match shrink(&mut comparison.checker, found).case.call {
            Call::Calculate { src_sel, clocks, target_ref, target_interface } => {
                [clocks.reference(src_sel), clocks.cpu_1x_clk, target_ref, target_interface]
            }
            other => panic!("{other:?}"),
        }
    }

    #[test]
    fn a_wrong_divisor_is_caught_at_its_own_quotient() {
        let quotients = [
            ("published_ladder_without_the_rule", 33),
            ("quotients_33_to_64_give_256", 33),
            ("quotients_65_to_128_give_64", 65),
            ("quotients_129_to_256_give_128", 129),
            ("quotients_above_256_give_256", 257),
            ("quotient_2_gives_4", 2),
            ("quotient_128_gives_256", 128),
            ("quotient_256_refused", 256),
            ("quotient_257_gives_256", 257),
            ("quotient_65536_gives_2", 65_536),
            ("refusal_31_with_values_left", 257),
        ];
        for (name, quotient) in quotients {
            assert_eq!(smallest(name), [quotient, 0, quotient, 1], "{name}");
        }
    }

    #[test]
    fn a_wrong_order_is_caught_where_both_refuse() {
        assert_eq!(smallest("refusal_31_before_7"), [257, 258, 257, 1]);
        let [reference, _, target_ref, target_interface] = smallest("refusal_31_before_6");
        let divisor = reference.div_ceil(target_ref);
        assert!(divisor > 63 && (reference / divisor).div_ceil(target_interface) > 256);
    }
}
