//! The words that replies are made of: few enough for a dictionary of 256.

use crate::rng::Rng;

/// The controller's config register between transfers: bits 10, 14 and 15 set.
pub const IDLE_CONFIG: u32 = 0x8008_C4C1;

/// Config registers that no driver leaves: all bits, none, single ones set or clear.
pub const ODD_CONFIGS: [u32; 6] = [0, 0xFFFF_FFFF, 0x0001_0400, 0x7FF7_3B3E, 0x5555_5555, 0x8008_00C1];

/// Interrupt status with bit 4: a word waits.
pub const READY: [u32; 6] = [0x0000_0010, 0x0000_0014, 0xFFFF_FFFF, 0x0000_003F, 0x5A5A_5A5A, 0x8000_0030];

/// Interrupt status without bit 4.
pub const EMPTY: [u32; 6] = [0x0000_0000, 0x0000_0004, 0xFFFF_FFEF, 0x0000_002F, 0xA5A5_A5A5, 0x8000_0020];

/// Bytes of the status register: idle, busy, latch, either error with and without busy, both, and all other bits.
pub const STATUSES: [u8; 12] = [0x00, 0x01, 0x02, 0x03, 0x20, 0x21, 0x40, 0x41, 0x60, 0x61, 0x9E, 0x9F];

/// What stands below a register's byte in a reply.
const BELOW: [u32; 2] = [0x0012_3456, 0x00FF_FFFF];

const DATA_WORDS: usize = 56;

/// Words received that are data.
pub fn data() -> Vec<u32> {
    let mut rng = Rng::new(0x5151_9001);
    let mut words = vec![0x0000_0000, 0xFFFF_FFFF, 0x0403_0201, 0x8000_0001];
    words.resize_with(DATA_WORDS, || rng.word());
    words
}

/// A reply whose top byte is a register's.
pub fn register_reply(byte: u8, rng: &mut Rng) -> u32 {
    u32::from(byte) << 24 | rng.pick(&BELOW)
}
