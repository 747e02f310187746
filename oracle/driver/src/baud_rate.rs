//! Document 02's baud rate divisor (U3), as its sentences have it, in place of the one that the Rust's ladder gives. The Rust runs
//! first: the rule stands on its answer.

use call::{Call, Ended};

/// "equality with the Rust ends at quotient 32"
pub const LAST_EQUAL_QUOTIENT: u32 = 32;

const LARGEST_DIVISOR: u32 = 256;
const BAUD_DIV_OUT_OF_RANGE: u32 = 31;
/// The baud rate divisor among the values of an answer.
const BAUD_RATE_DIVISOR: usize = 3;

/// "the divisor shall be the smallest power of two from 2 to 256 that is not below the quotient", and "new 31 BaudDivOutOfRange for
/// quotients above 256".
pub fn baud_rate_divisor(quotient: u32) -> Result<u32, u32> {
    if quotient > LARGEST_DIVISOR {
        return Err(BAUD_DIV_OUT_OF_RANGE);
    }
    Ok(quotient.next_power_of_two().max(2))
}

/// The quotient that the Rust sought a divisor for: the reference clock over the Rust's own divisor of it, over the interface target,
/// rounded up. None where it refused, and of other calls.
pub fn quotient(call: &Call, rust: &Ended) -> Option<u32> {
    let Call::Calculate { src_sel, clocks, target_interface, .. } = call else {
        return None;
    };
    let [_, ref_clk_div, _, _] = rust.values[..] else {
        return None;
    };
    Some((clocks.reference(*src_sel) / ref_clk_div).div_ceil(*target_interface))
}

/// The answer where equality with the Rust has ended, none where the Rust's own counts. The paper's are the baud rate divisor and 31,
/// which has no values; source, reference divisor and loopback flag are the Rust's. So are 6 and 7: they come before the rule.
pub fn ruled(call: &Call, rust: &Ended) -> Option<Ended> {
    let quotient = quotient(call, rust).filter(|quotient| *quotient > LAST_EQUAL_QUOTIENT)?;
    let mut ended = rust.clone();
    match baud_rate_divisor(quotient) {
        Ok(divisor) => ended.values[BAUD_RATE_DIVISOR] = divisor,
        Err(answer) => (ended.answer, ended.values) = (answer, Vec::new()),
    }
    Some(ended)
}
