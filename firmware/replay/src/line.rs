//! The line of a call, as the stored output has it; `oracle/list/README.md` says what stands where.
//! A call whose ways part gets a line that no stored one is like.

use crate::call::{Call, Ended};
use core::fmt::{Result, Write};

/// 2^40 - 87, a prime above 2^32: no word can change alone unseen.
const MODULUS: u64 = 0xFF_FFFF_FFA9;
/// Below 2^21, so that its product with a remainder fits 64 bits.
const FACTOR: u64 = 0x10_0003;

fn digest<T: Copy + Into<u64>>(numbers: &[T]) -> u64 {
    numbers.iter().fold(1, |h: u64, number| (h * FACTOR + (*number).into()) % MODULUS)
}

pub(crate) fn ended(out: &mut impl Write, at: usize, call: Call, ended: &Ended, log: &[u32], buffer: &[u8]) -> Result {
    write!(out, "{at} {:<14} {} {} {} {}", call.name(), ended.answer, ended.used, ended.replies, ended.counted)?;
    write!(out, " {:010x} {:010x}", digest(log), digest(buffer))?;
    // The codes of an id that was not read are no values.
    let is_unread = ended.answer != 0 && matches!(call, Call::ReadRdidBase | Call::ReadRdidExtended);
    for value in &ended.values[..call.values()] {
        write!(out, " {:02x}", if is_unread { 0 } else { *value })?;
    }
    writeln!(out)
}

pub(crate) fn parted(out: &mut impl Write, at: usize, call: Call, what: &str) -> Result {
    writeln!(out, "{at} {:<14} WAYS PART: {what}", call.name())
}

pub(crate) fn bad(out: &mut impl Write, at: usize) -> Result {
    writeln!(out, "BAD {at}")
}
