//! The calls that are compared: document 01's domain of equality, with what document 02 makes of it.
//!
//! - The sum of address and length fits 32 bits. A read that ends at exactly 2^32 is accepted by the port, and the Rust's
//!   `addr + offset` never reaches 2^32 there; but 2^32 itself does not fit, so such a read is not compared.
//! - No zero divisor is reached. A zero that stands behind a refusal is not reached, and is compared.
//! - Loopback targets are up to 2,147,483,647 Hz, because the Rust doubles them.
//! - Fields are within their width.
//! - Of a list of sectors the papers' rules decide what is refused, and the Rust is handed what is not: every list is compared.
//! - Of `calculate` equality with the Rust ends at quotient 32. Above it the Rust is run as well, and on its answer the paper's rule
//!   decides the baud rate divisor or 31: every quotient is compared.

use call::{Call, Clocks};
use driver::LAST_EQUAL_QUOTIENT;

pub const LOOPBACK_TARGET_MAX: u32 = 0x7FFF_FFFF;
const SECTOR: u32 = 0x1_0000;

pub fn holds(call: &Call) -> bool {
    match call {
        Call::Calculate { src_sel, clocks, target_ref, target_interface } => {
            *src_sel < 4 && calculates(clocks.reference(*src_sel), clocks, *target_ref, *target_interface)
        }
        Call::CalculateWithLoopback { src_sel, target_interface, .. } => {
            *src_sel < 4 && (1..=LOOPBACK_TARGET_MAX).contains(target_interface)
        }
        Call::LinearModeConfig { operating_mode, .. } => INSTRUCTIONS.contains(operating_mode),
        Call::Initialize { src_sel, ref_clk_div, baud_rate_div, .. } => {
            *src_sel < 4 && *ref_clk_div < 64 && baud_rate_div.is_none_or(|code| code < 8)
        }
        Call::New { latency, .. } => latency.is_none_or(|code| code < 4),
        Call::EraseSector { addr } => addr.checked_add(SECTOR).is_some(),
        Call::Program { addr, data } | Call::WritePages { addr, data } => fits(*addr, data.len()),
        Call::ReadPageRead { addr, length } | Call::ReadFastRead { addr, length, .. } => fits(*addr, *length),
        _ => true,
    }
}

/// The read instructions that the Rust lists.
pub const INSTRUCTIONS: [u8; 6] = [0x03, 0x0B, 0x3B, 0x6B, 0xBB, 0xEB];

/// Of the calls that are compared: whether equality is with the Rust's own answer, without U3's rule on it. In `calculate` it is where no
/// baud rate divisor is sought, or one for a quotient of at most 32.
pub fn rust_alone(call: &Call) -> bool {
    quotient(call).is_none_or(|quotient| quotient <= LAST_EQUAL_QUOTIENT)
}

/// The quotient of a `calculate` that no refusal keeps from it.
pub fn quotient(call: &Call) -> Option<u32> {
    let Call::Calculate { src_sel, clocks, target_ref, target_interface } = call else {
        return None;
    };
    let reference = clocks.reference(*src_sel);
    let divisor = reference.div_ceil(*target_ref);
    let divided = reference.checked_div(divisor)?;
    let sought = divisor <= 63 && divided >= clocks.cpu_1x_clk && *target_interface != 0;
    sought.then(|| divided.div_ceil(*target_interface))
}

/// No division by zero before the answer is known.
fn calculates(reference: u32, clocks: &Clocks, target_ref: u32, target_interface: u32) -> bool {
    if target_ref == 0 {
        return false;
    }
    let divisor = reference.div_ceil(target_ref);
    if divisor > 63 {
        return true;
    }
    divisor != 0 && (reference / divisor < clocks.cpu_1x_clk || target_interface != 0)
}

fn fits(addr: u32, length: usize) -> bool {
    u32::try_from(length).is_ok_and(|length| addr.checked_add(length).is_some())
}
