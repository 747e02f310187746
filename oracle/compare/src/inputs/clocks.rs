//! Clock calculations: every quotient on both sides of the last that has a baud rate divisor, every divisor and each threshold with
//! its neighbours.

use super::{Sweep, Swept};
use crate::domain::LOOPBACK_TARGET_MAX;
use crate::rng::Rng;
use call::{Call, Clocks};

/// Quotients far past the last that has a baud rate divisor.
const LARGE_QUOTIENTS: [u32; 8] = [511, 512, 513, 1000, 65_535, 65_536, 1 << 24, u32::MAX];
/// Interface targets of the quotients.
const TARGETS: [u32; 5] = [1, 2, 3, 1000, 781_250];
/// Divisors around the last that the field holds.
const DIVISORS: std::ops::RangeInclusive<u32> = 0..=66;

/// Clocks of which only the source's matters, beside cpu_1x.
fn clocks(rng: &mut Rng, src_sel: u8, reference: u32, cpu_1x_clk: u32) -> Clocks {
    let mut clocks = Clocks { io_ref_clk: rng.sized(), arm_ref_clk: rng.sized(), ddr_ref_clk: rng.sized(), cpu_1x_clk };
    match src_sel {
        0 | 1 => clocks.io_ref_clk = reference,
        2 => clocks.arm_ref_clk = reference,
        _ => clocks.ddr_ref_clk = reference,
    }
    clocks
}

pub fn calculate(sweep: &mut Sweep<'_>) -> Swept {
    for src_sel in 0..4 {
        for quotient in (1..=300).chain(LARGE_QUOTIENTS) {
            quotients(sweep, src_sel, quotient)?;
        }
        for divisor in DIVISORS {
            divisors(sweep, src_sel, divisor)?;
        }
        for target in TARGETS {
            coinciding(sweep, src_sel, target)?;
        }
    }
    Ok(())
}

/// Divided references whose quotient, rounded up, is exactly `quotient`: the largest and the smallest for a target.
fn quotients(sweep: &mut Sweep<'_>, src_sel: u8, quotient: u32) -> Swept {
    for target in TARGETS.into_iter().chain([u32::MAX / quotient]) {
        let Some(largest) = quotient.checked_mul(target) else {
            continue;
        };
        for divided in [largest, largest - (target - 1)] {
            for divisor in [1, 2, 63] {
                quotient_at(sweep, src_sel, divided, divisor, target)?;
            }
        }
    }
    Ok(())
}

/// A reference that gives `divided` when it is divided by `divisor` and rounded down.
fn quotient_at(sweep: &mut Sweep<'_>, src_sel: u8, divided: u32, divisor: u32, target: u32) -> Swept {
    let rest = sweep.rng.between(0, divisor - 1);
    let Some(reference) = divided.checked_mul(divisor).and_then(|product| product.checked_add(rest)) else {
        return Ok(());
    };
    let cpu_1x_clk = sweep.rng.pick(&[0, divided / 2, divided]);
    let clocks = clocks(&mut sweep.rng, src_sel, reference, cpu_1x_clk);
    let target_ref = reference.div_ceil(divisor);
    sweep.pure(Call::Calculate { src_sel, clocks, target_ref, target_interface: target })
}

/// References around a multiple of the target, and cpu_1x around the divided reference.
fn divisors(sweep: &mut Sweep<'_>, src_sel: u8, divisor: u32) -> Swept {
    for target_ref in [1, 2, 1000, 33_333_333, u32::MAX / 63, u32::MAX / 64, u32::MAX] {
        for reference in around(u64::from(divisor) * u64::from(target_ref)) {
            let divided = reference.checked_div(reference.div_ceil(target_ref)).unwrap_or(0);
            for cpu_1x_clk in around(u64::from(divided)).chain([0, u32::MAX]) {
                let clocks = clocks(&mut sweep.rng, src_sel, reference, cpu_1x_clk);
                // A target of 0 is in the domain where a refusal comes before it.
                for target_interface in [0, 1, divided / 40, u32::MAX] {
                    sweep.pure(Call::Calculate { src_sel, clocks, target_ref, target_interface })?;
                }
            }
        }
    }
    Ok(())
}

/// Quotients 256 and 257, and an interface target of 0, each behind nothing, behind 7 and behind 6. A target of 0 behind nothing is out
/// of the domain.
fn coinciding(sweep: &mut Sweep<'_>, src_sel: u8, target: u32) -> Swept {
    for divided in [256 * target, 256 * target + 1] {
        for divisor in [1, 2, 63, 64, 65] {
            let Some(reference) = divided.checked_mul(divisor) else {
                continue;
            };
            for cpu_1x_clk in [divided, divided + 1] {
                let clocks = clocks(&mut sweep.rng, src_sel, reference, cpu_1x_clk);
                for target_interface in [target, 0] {
                    sweep.pure(Call::Calculate { src_sel, clocks, target_ref: divided, target_interface })?;
                }
            }
        }
    }
    Ok(())
}

/// A number and its neighbours, where they fit.
fn around(number: u64) -> impl Iterator<Item = u32> {
    let near = [number.checked_sub(1), Some(number), number.checked_add(1)];
    near.into_iter().flatten().filter_map(|number| u32::try_from(number).ok())
}

pub fn calculate_with_loopback(sweep: &mut Sweep<'_>) -> Swept {
    let targets = [1, 2, 3, 500, 7_936_507, 7_936_508, 33_333_333, LOOPBACK_TARGET_MAX - 1, LOOPBACK_TARGET_MAX];
    for src_sel in 0..4 {
        for target_interface in targets {
            for divisor in DIVISORS {
                for reference in around(2 * u64::from(divisor) * u64::from(target_interface)) {
                    let cpu_1x_clk = sweep.rng.sized();
                    let clocks = clocks(&mut sweep.rng, src_sel, reference, cpu_1x_clk);
                    sweep.pure(Call::CalculateWithLoopback { src_sel, clocks, target_interface })?;
                }
            }
        }
    }
    for reference in [0, 1, u32::MAX, 1_000_000_000] {
        for src_sel in 0..4 {
            let clocks = clocks(&mut sweep.rng, src_sel, reference, 111_111_111);
            let target_interface = sweep.rng.between(1, LOOPBACK_TARGET_MAX);
            sweep.pure(Call::CalculateWithLoopback { src_sel, clocks, target_interface })?;
        }
    }
    Ok(())
}

pub fn random(rng: &mut Rng) -> Call {
    let src_sel = rng.between(0, 3) as u8;
    let reference = rng.sized();
    let target_ref = rng.sized().max(reference / rng.between(1, 70));
    let cpu_1x_clk = rng.sized();
    let clocks = clocks(rng, src_sel, reference, cpu_1x_clk);
    let target_interface = (target_ref / rng.between(1, 400)).max(rng.between(0, 3));
    Call::Calculate { src_sel, clocks, target_ref, target_interface }
}

pub fn random_with_loopback(rng: &mut Rng) -> Call {
    let src_sel = rng.between(0, 3) as u8;
    let reference = rng.sized();
    let cpu_1x_clk = rng.sized();
    let clocks = clocks(rng, src_sel, reference, cpu_1x_clk);
    let target_interface = if rng.flag() { rng.sized() >> 1 } else { reference / rng.between(2, 140) };
    Call::CalculateWithLoopback { src_sel, clocks, target_interface }
}

#[cfg(test)]
mod tests {
    use super::*;
    use crate::domain::{quotient, rust_alone};
    use crate::inputs::Scale;
    use crate::oracle;
    use std::collections::BTreeSet;

    /// Hands every call of the sweep on.
    fn swept(mut each: impl FnMut(&Call)) {
        let mut visit = |probe: crate::check::Probe| {
            each(&probe.call);
            Ok(())
        };
        calculate(&mut Sweep::new(Scale::Default, Rng::new(1), &mut visit)).expect("no run");
    }

    /// Divisor, divided reference and interface target by their definitions.
    fn numbers(call: &Call) -> (u32, u32, u32) {
        let Call::Calculate { src_sel, clocks, target_ref, target_interface } = call else {
            panic!("{call:?}");
        };
        let reference = clocks.reference(*src_sel);
        let divisor = reference.div_ceil(*target_ref);
        (divisor, reference / divisor, *target_interface)
    }

    #[test]
    fn every_quotient_and_divisor_is_swept() {
        let (mut divisors, mut largest, mut smallest) = (BTreeSet::new(), BTreeSet::new(), BTreeSet::new());
        swept(|call| {
            if let Some(quotient) = quotient(call) {
                let (divisor, divided, target) = numbers(call);
                divisors.insert(divisor);
                if quotient.checked_mul(target) == Some(divided) {
                    largest.insert(quotient);
                }
                if (quotient - 1).checked_mul(target) == Some(divided - 1) {
                    smallest.insert(quotient);
                }
            }
        });
        assert!((1..=63).all(|divisor| divisors.contains(&divisor)));
        for quotient in (1..=300).chain(LARGE_QUOTIENTS) {
            assert!(largest.contains(&quotient) && smallest.contains(&quotient), "{quotient}");
        }
    }

    /// What refuses first, of what the numbers alone say: 6, 7 or nothing that the Rust has.
    fn refusal(call: &Call) -> u32 {
        let (divisor, divided, _) = numbers(call);
        match call {
            _ if divisor > 63 => 6,
            Call::Calculate { clocks, .. } if divided < clocks.cpu_1x_clk => 7,
            _ => 0,
        }
    }

    #[test]
    fn both_sides_of_256_are_swept_behind_each_refusal() {
        let mut met = BTreeSet::new();
        swept(|call| {
            let (_, divided, target) = numbers(call);
            if target == 0 {
                met.insert((refusal(call), 0, 0));
            } else {
                met.insert((refusal(call), target, divided.div_ceil(target)));
            }
        });
        for first in [0, 6, 7] {
            assert_eq!(met.contains(&(first, 0, 0)), first != 0, "a target of 0 behind {first}");
            // A divisor of 64 leaves 26 bits of the reference.
            for target in TARGETS.into_iter().filter(|target| first != 6 || 257 * target < 1 << 26) {
                assert!([256, 257].iter().all(|quotient| met.contains(&(first, target, *quotient))), "{target}");
            }
        }
    }

    #[test]
    fn the_rule_decides_above_32_alone_and_31_is_met() {
        let (mut ruled, mut answers) = (BTreeSet::new(), BTreeSet::new());
        swept(|call| {
            let ran = oracle::replay(call, &[].into(), 0, 0, &mut []).expect("in the domain");
            assert_eq!(ran.ruled, !rust_alone(call), "{call:?}");
            assert_eq!(ran.ruled, quotient(call).is_some_and(|quotient| quotient > 32), "{call:?}");
            assert_eq!(ran.ended.answer == 31, quotient(call).is_some_and(|quotient| quotient > 256), "{call:?}");
            ruled.insert(ran.ruled);
            answers.insert(ran.ended.answer);
        });
        assert_eq!(ruled, BTreeSet::from([false, true]));
        assert_eq!(answers, BTreeSet::from([0, 6, 7, 31]));
    }
}
