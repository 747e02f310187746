//! Lists of sectors.

use super::List;
use crate::device::Manner;
use crate::words::STATUSES;
use call::Call;

/// All sectors that are accepted.
const SECTORS: u32 = 255;

pub fn add(list: &mut List) {
    refusals(list);
    repeats(list);
    long(list);
    statuses(list);
    last_places(list);
    noise(list);
}

fn erase(list: &[u32]) -> Call {
    Call::EraseSectors { list: list.to_vec() }
}

/// A refused list, with replies and log that it must leave alone.
fn refused(list: &mut List, sectors: &[u32]) {
    let spare = list.on_device(&erase(&[0x0001_0000]), &Manner::plain());
    list.push(&erase(sectors), &spare.replies[..6], 24);
}

/// Bad entries at each end and in the middle, 1 before 2 at one place, and the first of two.
fn refusals(list: &mut List) {
    list.whole(erase(&[]), Manner::plain());
    refused(list, &[]);
    for sectors in [
        // The sum of address and sector is above FFFFFF; the last two need more than 24 and 32 bits.
        [0x00FF_0000, 0x0001_0000, 0x0002_0000],
        [0x0001_0000, 0x00FF_0001, 0x0002_0000],
        [0x0001_0000, 0x0002_0000, 0x0100_0000],
        [0x0001_0000, 0x0002_0000, 0xFFFF_0000],
        // Not aligned; the last ends at FFFFFF.
        [0x0000_0001, 0x0001_0000, 0x0002_0000],
        [0x0001_0000, 0x0003_8000, 0x0002_0000],
        [0x0001_0000, 0x0002_0000, 0x00FE_FFFF],
        // Both rules, in both orders.
        [0x0001_0000, 0x0000_0004, 0x00FF_0000],
        [0x0001_0000, 0x00FF_0000, 0x0000_0004],
        // A repeat before a bad entry, around it and behind it, and a bad entry twice.
        [0x0001_0000, 0x0001_0000, 0x00FF_0000],
        [0x0001_0000, 0x0000_FFFF, 0x0001_0000],
        [0xFFFF_FFFF, 0x0001_0000, 0x0001_0000],
        [0x0000_0001, 0x0000_0001, 0x0001_0000],
    ] {
        refused(list, &sectors);
    }
}

fn repeats(list: &mut List) {
    let [a, b, c] = [0x0000_0000, 0x00FE_0000, 0x0010_0000];
    for sectors in [&[a, a][..], &[a, b, a], &[a, b, b], &[a, b, b, a], &[a, b, c, b, c], &[b, a, c, c, a], &[c, c, c]]
    {
        refused(list, sectors);
    }
}

/// So many entries, all sectors again and again from the highest down.
fn cycled(count: usize) -> Vec<u32> {
    (0..SECTORS).rev().cycle().take(count).map(|sector| sector << 16).collect()
}

/// 255 entries are erased as far as the memory of the replaying program goes; 256 have a repeat, and 257 are too long.
fn long(list: &mut List) {
    let every = erase(&cycled(255));
    let front = list.front(&every, &Manner::plain());
    list.push(&every, &front.replies, front.used());
    list.push(&every, &front.replies[..front.replies.len() - 20], front.used());
    refused(list, &cycled(256));
    refused(list, &cycled(257));
    let with = |count: usize, place: usize, addr: u32| {
        let mut sectors = cycled(count);
        sectors[place] = addr;
        sectors
    };
    refused(list, &with(256, 200, 0x0000_0001));
    refused(list, &with(256, 255, 0x00FF_0000));
    refused(list, &with(255, 254, 0x00FE_0000));
    refused(list, &with(257, 0, 0x00FF_0001));
}

/// Busy and errors in the first sector and in later ones.
fn statuses(list: &mut List) {
    for sectors in [&[0x0012_0000][..], &[0x00FE_0000, 0x0000_0000], &[0x0005_0000, 0x0003_0000, 0x0004_0000]] {
        list.whole(erase(sectors), Manner::plain());
    }
    for byte in STATUSES {
        list.whole(erase(&[0x0003_0000, 0x0002_0000]), Manner::status(&[byte, 0x00, 0x01, 0x00]));
    }
    for statuses in [&[0x00, 0x20][..], &[0x01, 0x00, 0x21], &[0x00, 0x03, 0x40, 0x01, 0x60]] {
        list.cut(erase(&[0x00AB_0000, 0x0001_0000, 0x0077_0000]), Manner::status(statuses).slow());
    }
}

/// The last accesses of the first sector, where the count changes, and the first of the second; and those of the last sector.
fn last_places(list: &mut List) {
    let manner = Manner::status(&[0x00]);
    let [one, two] =
        [&[0x00C0_0000][..], &[0x00C0_0000, 0x0041_0000]].map(|sectors| list.on_device(&erase(sectors), &manner));
    let call = erase(&[0x00C0_0000, 0x0041_0000]);
    for room in (one.used() - 4..one.used() + 4).chain(two.used() - 2..two.used()) {
        list.push(&call, two.within(room), room);
    }
    for given in (one.replies.len() - 2..one.replies.len() + 2).chain(two.replies.len() - 2..two.replies.len()) {
        list.push(&call, &two.replies[..given], two.used());
    }
}

fn noise(list: &mut List) {
    for i in 0..4 {
        let sectors = [0x0001_0000 * i, 0x0080_0000 + 0x0001_0000 * i, 0x00FE_0000];
        list.noise(erase(&sectors), 40 + 15 * i as usize);
    }
}
