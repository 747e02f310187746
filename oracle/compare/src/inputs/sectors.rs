//! Lists of sectors: every number of entries that has a meaning, every refusal at each end and in the middle and beside every
//! other, and runs that are cut at every access.

use super::array::{RANGE_LIMIT, SECTOR, random_sector};
use super::{Scale, Sweep, Swept};
use crate::check::{Cuts, On};
use crate::device::Knobs;
use crate::rng::Rng;
use call::Call;

/// The sectors that rule 1 accepts: the last of the array is none of them.
const SECTORS: u32 = 255;
/// The longest list that is tested for anything but its length.
const MOST: usize = 256;

/// Addresses that meet rule 1: the last sector, one that is not aligned either, and sums past 24 and 32 bits.
const OUT_OF_RANGE: [u32; 8] =
    [0x00FF_0000, 0x00FF_0001, 0x0100_0000, 0x0100_0004, 0x8000_0000, 0xFFFE_0000, 0xFFFF_0000, 0xFFFF_FFFF];
/// Addresses that meet rule 2 alone; the last ends at the range limit.
const NOT_ALIGNED: [u32; 6] = [0x0000_0001, 0x0000_0100, 0x0000_FFFF, 0x0003_8000, 0x0012_0004, RANGE_LIMIT - SECTOR];

/// So many sectors, none of them twice, in any order.
pub fn distinct(rng: &mut Rng, count: usize) -> Vec<u32> {
    let mut list = ascending();
    for place in 0..count {
        let other = place + rng.index(list.len() - place);
        list.swap(place, other);
    }
    list.truncate(count);
    list
}

/// So many entries, all sectors again and again.
pub fn cycled(count: usize) -> Vec<u32> {
    (0..SECTORS).cycle().take(count).map(|sector| sector << 16).collect()
}

/// All sectors in each direction, and mixed.
pub fn orders(rng: &mut Rng) -> Vec<Vec<u32>> {
    let descending = ascending().into_iter().rev().collect();
    vec![ascending(), descending, distinct(rng, SECTORS as usize)]
}

fn ascending() -> Vec<u32> {
    cycled(SECTORS as usize)
}

fn erase(list: Vec<u32>) -> Call {
    Call::EraseSectors { list }
}

pub fn erase_sectors(sweep: &mut Sweep<'_>) -> Swept {
    lengths(sweep)?;
    bad_entries(sweep)?;
    two_bad_entries(sweep)?;
    repeats(sweep)?;
    two_repeats(sweep)?;
    repeats_and_bad_entries(sweep)?;
    too_long(sweep)?;
    cut_everywhere(sweep)?;
    failures(sweep)
}

/// Every number of sectors to 20, and around each power of two.
fn lengths(sweep: &mut Sweep<'_>) -> Swept {
    let more = [31, 32, 33, 63, 64, 65, 127, 128, 129, 253, 254, 255];
    for count in (0..=20).chain(more) {
        for _ in 0..2 {
            let list = distinct(&mut sweep.rng, count);
            let cuts = if count < 2 { Cuts::All } else { Cuts::Random(6) };
            sweep.drawn(erase(list), cuts)?;
        }
    }
    Ok(())
}

/// So many entries: sectors, and behind all that there are one of them again.
fn filled(rng: &mut Rng, count: usize) -> Vec<u32> {
    let mut list = distinct(rng, count.min(SECTORS as usize));
    list.resize(count, 0x0055_0000);
    list
}

/// First, second, in the middle, last but one and last.
fn places(count: usize) -> Vec<usize> {
    let mut places = vec![0, 1, count / 2, count.saturating_sub(2), count - 1];
    places.retain(|place| *place < count);
    places.sort_unstable();
    places.dedup();
    places
}

fn bad_entries(sweep: &mut Sweep<'_>) -> Swept {
    for count in [1, 2, 3, 16, 255, 256] {
        for place in places(count) {
            for bad in OUT_OF_RANGE.into_iter().chain(NOT_ALIGNED) {
                let mut list = filled(&mut sweep.rng, count);
                list[place] = bad;
                sweep.pure(erase(list))?;
            }
        }
    }
    // Each sector's neighbours as the second of two entries.
    for sector in 0..=SECTORS + 1 {
        for near in [1, 4, SECTOR - 1] {
            sweep.pure(erase(vec![0x0003_0000, sector << 16 | near]))?;
        }
    }
    Ok(())
}

/// Each rule before the other, at each pair of places.
fn two_bad_entries(sweep: &mut Sweep<'_>) -> Swept {
    for count in [2, 3, 16, 256] {
        for first in places(count) {
            for second in places(count).into_iter().filter(|second| *second > first) {
                for (a, b) in [(0x00FF_0000, 0x0000_0001), (0x0000_0001, 0x00FF_0000), (0x0100_0000, 0x00FF_0001)] {
                    let mut list = filled(&mut sweep.rng, count);
                    (list[first], list[second]) = (a, b);
                    sweep.pure(erase(list))?;
                }
            }
        }
    }
    Ok(())
}

/// Each pair of places in short lists; in long ones those at the ends, and every place behind some other.
fn repeats(sweep: &mut Sweep<'_>) -> Swept {
    for count in 2..=if sweep.scale == Scale::Long { 20 } else { 8 } {
        for later in 1..count {
            for earlier in 0..later {
                repeat(sweep, count, earlier, later)?;
            }
        }
    }
    for later in 1..SECTORS as usize {
        for earlier in [0, sweep.rng.index(later), later - 1] {
            repeat(sweep, 255, earlier, later)?;
        }
    }
    // All sectors, and one of them again at the end.
    for earlier in 0..SECTORS as usize {
        let mut list = distinct(&mut sweep.rng, 255);
        list.push(list[earlier]);
        sweep.pure(erase(list))?;
    }
    Ok(())
}

fn repeat(sweep: &mut Sweep<'_>, count: usize, earlier: usize, later: usize) -> Swept {
    let mut list = distinct(&mut sweep.rng, count);
    list[later] = list[earlier];
    sweep.pure(erase(list))
}

/// Two pairs, one after, around and between the other, and a sector three times.
fn two_repeats(sweep: &mut Sweep<'_>) -> Swept {
    let shapes: [&[usize]; 9] = [
        &[0, 0, 1, 1],
        &[0, 1, 0, 1],
        &[0, 1, 1, 0],
        &[0, 0, 0],
        &[0, 1, 0, 0],
        &[0, 1, 2, 1, 2],
        &[0, 1, 2, 2, 1, 0],
        &[0, 1, 2, 0, 3, 3],
        &[0, 1, 2, 3, 3, 0],
    ];
    for shape in shapes {
        for before in [0, 1, 100, MOST - shape.len()] {
            let sectors = distinct(&mut sweep.rng, (before + 4).min(255));
            let pairs = shape.iter().map(|place| sectors[sectors.len() - 1 - place]);
            let list = sectors[..before.min(sectors.len() - 4)].iter().copied().chain(pairs).collect();
            sweep.pure(erase(list))?;
        }
    }
    Ok(())
}

/// A bad entry before, between and behind two that are the same, and bad entries that are the same.
fn repeats_and_bad_entries(sweep: &mut Sweep<'_>) -> Swept {
    for count in [3, 4, 16, 201, 256] {
        for bad in [0x00FF_0000, 0x0000_0001, 0x00FF_0001, 0xFFFF_0000] {
            for place in places(count) {
                repeats_around(sweep, count, place, bad)?;
            }
        }
    }
    Ok(())
}

/// The first two of the other entries the same, the first and the last, and the last two; and the bad one again at the end.
fn repeats_around(sweep: &mut Sweep<'_>, count: usize, place: usize, bad: u32) -> Swept {
    let mut list = filled(&mut sweep.rng, count);
    list[place] = bad;
    let others: Vec<usize> = (0..count).filter(|other| *other != place).collect();
    let last = others.len() - 1;
    for (earlier, later) in [(0, 1), (0, last), (last - 1, last)] {
        let mut list = list.clone();
        list[others[later]] = list[others[earlier]];
        sweep.pure(erase(list))?;
    }
    list[count - 1] = bad;
    sweep.pure(erase(list))
}

/// 256 entries of one sector are not too long; 257 are, whatever they are.
fn too_long(sweep: &mut Sweep<'_>) -> Swept {
    for count in [255, 256, 257, 258, 300, 512, 1000] {
        sweep.pure(erase(vec![0x0007_0000; count]))?;
        sweep.pure(erase(cycled(count)))?;
        for bad in [0x00FF_0000, 0x0000_0001] {
            for place in places(count) {
                let mut list = cycled(count);
                list[place] = bad;
                sweep.pure(erase(list))?;
            }
        }
    }
    Ok(())
}

/// One to three sectors on devices of each sort, with replies, log and both ended at every access.
fn cut_everywhere(sweep: &mut Sweep<'_>) -> Swept {
    for count in 1..=3 {
        let mut knobs = vec![
            Knobs::plain(),
            Knobs { busy: (1, 1), ..Knobs::plain() },
            Knobs { busy: (2, 3), waiting: 2, pace: 60, ..Knobs::plain() },
        ];
        knobs.extend((0..count as u32).map(|faulty| Knobs { faulty: Some(faulty), busy: (0, 1), ..Knobs::plain() }));
        knobs.extend((0..if sweep.scale == Scale::Long { 40 } else { 4 }).map(|_| Knobs::drawn(&mut sweep.rng)));
        for knobs in knobs {
            let list = distinct(&mut sweep.rng, count);
            sweep.probe(erase(list), On::Device(knobs), Cuts::All)?;
        }
    }
    Ok(())
}

/// An error at each sector of a list.
fn failures(sweep: &mut Sweep<'_>) -> Swept {
    for count in [4, 9, 40] {
        for faulty in 0..count {
            let list = distinct(&mut sweep.rng, count as usize);
            let knobs = Knobs { fault: 0, faulty: Some(faulty), ..Knobs::drawn(&mut sweep.rng) };
            sweep.probe(erase(list), On::Device(knobs), Cuts::Random(6))?;
        }
    }
    Ok(())
}

/// Mostly a short list without a mistake, or the call would make no access.
pub fn random(rng: &mut Rng) -> Vec<u32> {
    let most = rng.pick(&[3, 3, 6, 6, 6, 12, 40, 255]);
    let length = rng.index(most + 1);
    let mut list = distinct(rng, length);
    if length == 0 || rng.chance(70) {
        return list;
    }
    for _ in 0..rng.between(1, 3) {
        let (place, other) = (rng.index(length), rng.index(length));
        list[place] = if rng.flag() { list[other] } else { random_sector(rng) };
    }
    if rng.chance(5) {
        list.resize(rng.index(600), 0x0012_0000);
    }
    list
}

#[cfg(test)]
mod tests {
    use super::*;
    use crate::check::Probe;
    use std::collections::BTreeSet;

    fn swept() -> Vec<Vec<u32>> {
        let mut lists = Vec::new();
        let mut visit = |probe: Probe| {
            if let Call::EraseSectors { list } = probe.call {
                lists.push(list);
            }
            Ok(())
        };
        erase_sectors(&mut Sweep::new(Scale::Default, Rng::new(1), &mut visit)).expect("no run");
        lists
    }

    #[test]
    fn distinct_sectors_are_so() {
        for count in [0, 1, 2, 100, 255] {
            let list = distinct(&mut Rng::new(7), count);
            assert_eq!(list.iter().collect::<BTreeSet<_>>().len(), count);
            assert!(list.iter().all(|addr| addr % SECTOR == 0 && addr + SECTOR <= RANGE_LIMIT));
        }
    }

    #[test]
    fn every_border_is_swept() {
        let lists = swept();
        let lengths: BTreeSet<usize> = lists.iter().map(Vec::len).collect();
        assert!([0, 1, 2, 3, 255, 256, 257].iter().all(|length| lengths.contains(length)));
        let refusals: BTreeSet<(u32, u32)> = lists
            .iter()
            .filter_map(|list| driver::refusal(list))
            .map(|refusal| (refusal.answer, refusal.place))
            .collect();
        assert!(
            [1, 2].iter().all(|answer| [0, 1, 128, 254, 255].iter().all(|place| refusals.contains(&(*answer, *place))))
        );
        assert!((1..=255).all(|place| refusals.contains(&(32, place))));
        assert!(refusals.contains(&(33, 0)));
    }
}
