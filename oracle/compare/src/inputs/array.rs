//! Calls on the array: lengths and addresses around every size that the driver knows, every page and sector end, the range
//! limit and the end of the 32-bit addresses.

use super::{Scale, Sweep, Swept};
use crate::check::{Cuts, On};
use crate::rng::Rng;
use call::Call;

/// One above the last byte's address.
pub const ARRAY: u32 = 0x0100_0000;
/// The last sum of address and length that is accepted.
pub const RANGE_LIMIT: u32 = ARRAY - 1;
pub const SECTOR: u32 = 0x1_0000;

/// Sizes that the driver knows, and multiples of them.
const SIZES: [usize; 16] = [124, 128, 132, 236, 240, 241, 244, 247, 248, 249, 256, 495, 496, 497, 512, 744];
/// Odd places in a page, beside the multiples of 4.
const ODD_PLACES: [u32; 12] = [1, 2, 3, 5, 15, 125, 127, 129, 241, 251, 253, 255];

/// 0 to 20, and every size with its neighbours.
fn lengths() -> Vec<usize> {
    let near = SIZES.iter().flat_map(|&size| [size - 1, size, size + 1]);
    let mut lengths: Vec<usize> = (0..=20).chain(near).collect();
    lengths.sort_unstable();
    lengths.dedup();
    lengths
}

/// Addresses that end a span of `length` bytes at a limit or beside it, or lie at one.
fn limit_addresses(length: usize) -> Vec<u32> {
    let length = length as u32;
    let ends = [SECTOR, RANGE_LIMIT, ARRAY, ARRAY + SECTOR, u32::MAX];
    let near = ends.iter().flat_map(|&end| [end - 4, end - 1, end, end.saturating_add(1), end.saturating_add(4)]);
    let mut addresses: Vec<u32> = near.clone().filter_map(|end| end.checked_sub(length)).collect();
    addresses.extend(near);
    addresses.extend([0x00FF_FFFB, 0x00FF_FFFC, 0x00FE_0000, 0x0003_FFFC, 0x0004_0000, 0x8000_0000]);
    addresses.sort_unstable();
    addresses.dedup();
    addresses
}

/// Every multiple of 4 in a page, and odd places.
fn page_places() -> impl Iterator<Item = u32> {
    (0..256).step_by(4).chain(ODD_PLACES)
}

/// A random page below the range limit; now and then the one before a sector's end.
fn page(rng: &mut Rng) -> u32 {
    let page = rng.between(0, 0xFFFD);
    if rng.chance(20) { (page | 0xFF) << 8 } else { page << 8 }
}

/// The call that `make` gives for each length at each address. Odd branches come from random replies in every fourth run.
fn spans(sweep: &mut Sweep<'_>, make: fn(u32, Vec<u8>) -> Call) -> Swept {
    for length in lengths() {
        let mut addresses = limit_addresses(length);
        addresses.extend(page_places().map(|place| page(&mut sweep.rng) | place));
        for addr in addresses {
            let call = make(addr, sweep.rng.bytes(length));
            span(sweep, call, length)?;
        }
    }
    Ok(())
}

/// Short runs are cut at every place, now and then, and others at a few.
fn span(sweep: &mut Sweep<'_>, call: Call, length: usize) -> Swept {
    let cuts = match sweep.scale {
        Scale::Default if length <= 20 && sweep.rng.chance(10) => Cuts::Every,
        Scale::Default => Cuts::Random(2),
        Scale::Long if length <= 20 || sweep.rng.chance(10) => Cuts::Every,
        Scale::Long => Cuts::Random(8),
    };
    if sweep.rng.chance(25) { sweep.probe(call, On::Noise, cuts) } else { sweep.drawn(call, cuts) }
}

pub fn program(sweep: &mut Sweep<'_>) -> Swept {
    spans(sweep, |addr, data| Call::Program { addr, data })?;
    // Every length up to one that is too large, at a place of its page where it fits.
    for length in 0..=260 {
        let addr = page(&mut sweep.rng) + 4 * sweep.rng.between(0, (256 - length.min(256)) / 4);
        let data = sweep.rng.bytes(length as usize);
        sweep.drawn(Call::Program { addr, data }, Cuts::Random(2))?;
    }
    Ok(())
}

pub fn write_pages(sweep: &mut Sweep<'_>) -> Swept {
    spans(sweep, |addr, data| Call::WritePages { addr, data })?;
    aligned_pages(sweep)
}

/// Long data from a page's start or middle on, so that many chunks end clean before the length or a page's end stops the call.
fn aligned_pages(sweep: &mut Sweep<'_>) -> Swept {
    let longer: &[usize] = if sweep.scale == Scale::Long { &[1500, 2048, 3001, 4096] } else { &[] };
    for length in (0..=1030).step_by(2).chain(lengths()).chain(longer.iter().copied()) {
        let addr = page(&mut sweep.rng) | sweep.rng.pick(&[0, 0, 128, 4, 64]);
        let data = sweep.rng.bytes(length);
        sweep.drawn(Call::WritePages { addr, data }, Cuts::Random(6))?;
    }
    Ok(())
}

/// A read's address has no meaning to the driver but for its bytes, so that fewer are swept.
fn reads(sweep: &mut Sweep<'_>, make: fn(u32, usize) -> Call) -> Swept {
    for length in lengths().into_iter().chain(21..124) {
        let mut addresses = limit_addresses(length);
        addresses.extend((0..8).map(|_| page(&mut sweep.rng) | u32::from(sweep.rng.byte())));
        for addr in addresses {
            span(sweep, make(addr, length), length)?;
        }
    }
    Ok(())
}

pub fn read_page_read(sweep: &mut Sweep<'_>) -> Swept {
    reads(sweep, |addr, length| Call::ReadPageRead { addr, length })
}

pub fn read_fast_read(sweep: &mut Sweep<'_>) -> Swept {
    reads(sweep, |addr, length| Call::ReadFastRead { addr, dummy_byte: false, length })?;
    reads(sweep, |addr, length| Call::ReadFastRead { addr, dummy_byte: true, length })
}

/// Every sector's start with its neighbours, and starts past the array.
pub fn erase_sector(sweep: &mut Sweep<'_>) -> Swept {
    let past = [0x100, 0x101, 0x1FF, 0x7FFF, 0x8000, 0xFFFE, 0xFFFF];
    for sector in (0..=0xFF).chain(past) {
        let start: u32 = sector << 16;
        let near = [start.wrapping_sub(4), start.wrapping_sub(1), start, start + 1, start + 4];
        for addr in near {
            let cuts = if sector % 16 == 0 { Cuts::Every } else { Cuts::Random(2) };
            sweep.drawn(Call::EraseSector { addr }, cuts)?;
        }
    }
    for _ in 0..100 {
        let addr = sweep.rng.between(0, 0xFE) << 16;
        sweep.probe(Call::EraseSector { addr }, On::Noise, Cuts::Every)?;
    }
    Ok(())
}

/// Mostly a sector's start, or the call would make no access.
pub fn random_sector(rng: &mut Rng) -> u32 {
    match rng.index(10) {
        0 => rng.sized(),
        1 => rng.between(0, 0x1FF) << 16 | rng.between(0, 7),
        _ => rng.between(0, 0xFE) << 16,
    }
}

/// Mostly a multiple of 4.
pub fn random_length(rng: &mut Rng, limit: usize) -> usize {
    let most = if rng.flag() { limit } else { 40 };
    let length = rng.index(most + 1);
    if rng.chance(70) { length / 4 * 4 } else { length }
}

/// Mostly such that the data fit where they are written.
pub fn random_address(rng: &mut Rng, length: usize) -> u32 {
    let limits = limit_addresses(length);
    match rng.index(10) {
        0 => rng.pick(&limits),
        1 => rng.sized(),
        2 => page(rng) | u32::from(rng.byte()),
        3..6 => page(rng) | rng.pick(&[0, 128]),
        _ => page(rng) | rng.below(256_u64.saturating_sub(length as u64).max(1)) as u32,
    }
}

#[cfg(test)]
mod tests {
    use super::*;
    use crate::check::Probe;
    use std::collections::BTreeSet;

    /// The sums of address and length that are swept.
    fn sums(sweep: fn(&mut Sweep<'_>) -> Swept) -> BTreeSet<u64> {
        let mut sums = BTreeSet::new();
        let mut visit = |probe: Probe| {
            match &probe.call {
                Call::Program { addr, data } => sums.insert(u64::from(*addr) + data.len() as u64),
                Call::ReadPageRead { addr, length } => sums.insert(u64::from(*addr) + *length as u64),
                _ => false,
            };
            Ok(())
        };
        sweep(&mut Sweep::new(Scale::Default, Rng::new(1), &mut visit)).expect("no run");
        sums
    }

    #[test]
    fn both_sides_of_the_limits_are_swept() {
        for sums in [sums(program), sums(read_page_read)] {
            assert!([0x00FF_FFFF, 0x0100_0000, 0xFFFF_FFFF].iter().all(|sum| sums.contains(sum)));
            assert!(sums.iter().all(|sum| *sum <= 0xFFFF_FFFF));
        }
    }
}
