//! What document 02 refuses of a list of sectors (U1), as its sentences have it. The Rust has no list: its `erase_sector`
//! would refuse an entry when those before it are erased.

const MOST_ENTRIES: usize = 256;
const SECTOR: u64 = 65_536;
/// The last sum of address and sector that is accepted.
const RANGE_LIMIT: u64 = 16_777_215;

const OUT_OF_RANGE: u32 = 1;
const ALIGNMENT: u32 = 2;
const REPEATED_SECTOR: u32 = 32;
const LIST_TOO_LONG: u32 = 33;

/// A refused list. The place is 0 where it is too long.
#[derive(Clone, Copy, Debug, PartialEq, Eq)]
pub struct Refusal {
    pub answer: u32,
    pub place: u32,
}

/// "1 and 2 as for one sector, with the first place, from 0, that meets either; new 32 RepeatedSector (with the first that
/// repeats an earlier one) after both; new 33 ListTooLong, tested first."
pub fn refusal(list: &[u32]) -> Option<Refusal> {
    if list.len() > MOST_ENTRIES {
        return Some(Refusal { answer: LIST_TOO_LONG, place: 0 });
    }
    let bad = (0..).zip(list).find_map(|(place, addr)| Some(Refusal { answer: rule(*addr)?, place }));
    bad.or_else(|| Some(Refusal { answer: REPEATED_SECTOR, place: repeat(list)? }))
}

/// The rule of one sector that an address meets, 1 before 2. The sum is the whole one: it may need 33 bits.
fn rule(addr: u32) -> Option<u32> {
    let addr = u64::from(addr);
    if addr + SECTOR > RANGE_LIMIT {
        return Some(OUT_OF_RANGE);
    }
    (addr % SECTOR != 0).then_some(ALIGNMENT)
}

/// The first place whose sector stands before it too, of a list without bad addresses.
fn repeat(list: &[u32]) -> Option<u32> {
    let mut named = [false; 256];
    let mut places = (0..).zip(list);
    places.find(|(_, addr)| std::mem::replace(&mut named[(*addr >> 16) as usize], true)).map(|(place, _)| place)
}
