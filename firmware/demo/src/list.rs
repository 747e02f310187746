//! The stored answers of the published Rust with U2's wait, replayed by this processor through the driver.
use crate::say;
use crate::uart::Uart;
use replay::{Memory, replay};

const LIST: &[u8] = include_bytes!("../../../crates/oracle_cases/stdin");

/// Prints a line for each call. `firmware/run` compares them with the stored ones. Its stack is not that of the calls of the
/// flash, which is measured.
#[inline(never)]
pub fn run(memory: &mut Memory) {
    replay(LIST, memory, &mut Uart).expect("the serial line takes every byte");
    say!("END of the list");
}
