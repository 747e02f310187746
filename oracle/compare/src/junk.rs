//! What the port is handed where nothing may look: arguments that the header says are not looked at, the address of an empty
//! slice, and the memory that is lent before it is written.

use std::{ptr, slice};

/// The values of one run, all drawn from one number. The Rust knows of none but the buffer's bytes.
#[derive(Clone, Copy, Debug, Default, PartialEq, Eq)]
pub struct Junk(u64);

impl Junk {
    pub const fn new(number: u64) -> Self {
        Junk(number)
    }

    /// The latency of `qspi_new` where `set_latency` is false: any byte.
    pub const fn latency(self) -> u8 {
        self.0 as u8
    }

    /// The baud rate code of `qspi_initialize` with loopback: any code of the field.
    pub const fn baud_rate_div(self) -> u8 {
        (self.0 >> 8) as u8 % 8
    }

    /// A word of the log before the run.
    pub fn word(self, place: usize) -> u32 {
        0xA5A5_5A5A ^ (self.0 >> 16) as u32 ^ (place as u32).wrapping_mul(0x9E37_79B9)
    }

    /// A byte of the buffer before the run.
    pub fn byte(self, place: usize) -> u8 {
        0x5A ^ (self.0 >> 48) as u8 ^ (place as u8).wrapping_mul(0x1D)
    }

    /// Where an empty slice lies: an address that is not null and aligned, as the header asks for, and hardly ever has memory.
    fn address(self) -> usize {
        (self.0 as usize | 1).wrapping_mul(8)
    }

    /// The slice itself, or an empty one elsewhere.
    pub fn lent<T>(self, list: &[T]) -> &[T] {
        match list {
            // SAFETY: no element is there, and the address is aligned for every integer and not null.
            [] => unsafe { slice::from_raw_parts(ptr::without_provenance(self.address()), 0) },
            list => list,
        }
    }

    /// The same of a slice that is lent for writing.
    pub fn lent_mut<T>(self, list: &mut [T]) -> &mut [T] {
        match list {
            // SAFETY: as above.
            [] => unsafe { slice::from_raw_parts_mut(ptr::without_provenance_mut(self.address()), 0) },
            list => list,
        }
    }
}

#[cfg(test)]
mod tests {
    use super::*;

    #[test]
    fn an_empty_slice_is_elsewhere_and_aligned() {
        for number in [0, 1, 0x1FFF_FFFF_FFFF_FFFF, u64::MAX] {
            let junk = Junk::new(number);
            let (words, bytes) = (junk.lent::<u32>(&[]), junk.lent_mut::<u8>(&mut []).as_ptr());
            assert!(words.is_empty() && words.as_ptr().addr() != 0 && words.as_ptr().is_aligned());
            assert_eq!(words.as_ptr().addr(), bytes.addr());
        }
        assert_eq!(Junk::new(5).lent(&[7]), [7]);
    }
}
