// Made by tools/erase from crates/zynq7000_hal/src/qspi/lqspi_configs.rt; a change belongs there.
//! The linear mode configurations. The Rust has a constant for each; here one function says them all.

use crate::zynq7000::bits;
use crate::zynq7000::qspi::InstructionCode;
use crate::zynq7000::qspi::LinearQspiConfig;

// A read in linear mode.
// requires { num_dummy_bytes < 8 }
pub fn linear_read(
    instruction_code: InstructionCode,
    sends_mode: bool,
    num_dummy_bytes: u32,
    two_devices: bool,
) -> LinearQspiConfig {
    LinearQspiConfig(
        (1 << LinearQspiConfig::ENABLE_LINEAR_MODE)
            + bits::flag(two_devices, LinearQspiConfig::BOTH_MEMORIES)
            + bits::flag(two_devices, LinearQspiConfig::SEPARATE_MEMORY_BUS)
            + bits::flag(sends_mode, LinearQspiConfig::MODE_ENABLE)
            + mode_bits(sends_mode)
            + (num_dummy_bytes << LinearQspiConfig::NUM_DUMMY_BYTES)
            + instruction_code.raw_value(),
    )
}

// The mode bits' part of the word: FF where they are sent.
fn mode_bits(sends_mode: bool) -> u32 {
    if sends_mode {
        0xFF << LinearQspiConfig::MODE_BITS
    } else {
        0
    }
}
