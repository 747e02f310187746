//! Long calls: a count that goes round at some number is right below it, so that every count is taken past each power of two
//! up to its end, or as far as time allows.
//!
//! | count | how far |
//! |---|---|
//! | bytes done of a save, its data and its addresses | to the largest save there is |
//! | bytes done of a read, its buffer and its addresses | past 2^24 |
//! | log words and replies | past 2^25 and 2^23 |
//! | words drained, looks at the interrupt status, status polls | past 2^16 |
//! | sectors of a list, and a place in it | to the last there is |
//! | entries of a list | past 2^24 |

use super::array::{ARRAY, RANGE_LIMIT};
use super::sectors;
use super::{Scale, Sweep, Swept};
use crate::check::{Cuts, On};
use crate::device::Knobs;
use crate::kind::Kind;
use crate::rng::Rng;
use call::Call;

/// More than 16 bits can count.
pub const LONG: usize = 70_000;
/// From address 0 to the range limit, in words.
pub const LARGEST_SAVE: usize = 16_777_212;
/// More than 24 bits can count.
const LARGEST_READ: usize = (1 << 24) + LONG;
/// More entries than 24 bits can count, and so few above that a port which counts in them would accept the rest.
const LARGEST_LIST: usize = (1 << 24) + 3;
const CHUNK: u32 = 128;

/// The long calls of a kind.
pub fn long(kind: Kind, sweep: &mut Sweep<'_>) -> Swept {
    match kind {
        Kind::EraseSector => polls(sweep, Call::EraseSector { addr: 0x0012_0000 })?,
        Kind::Program => polls(sweep, Call::Program { addr: 0x0012_0080, data: vec![0x5A; 128] })?,
        Kind::WritePages => saves(sweep)?,
        Kind::ReadPageRead => reads(sweep, &|addr, length| Call::ReadPageRead { addr, length })?,
        Kind::ReadFastRead => {
            for dummy_byte in [false, true] {
                reads(sweep, &|addr, length| Call::ReadFastRead { addr, dummy_byte, length })?;
            }
        }
        Kind::EraseSectors => lists(sweep)?,
        _ => {}
    }
    waits(kind, sweep)?;
    for call in largest(kind, &mut sweep.rng) {
        sweep.probe(call, On::Device(Knobs::plain().lasting()), Cuts::Once)?;
    }
    Ok(())
}

/// A device that is late and busy but shows no error and hides no word, so that a call goes on to its end.
fn clean(rng: &mut Rng) -> Knobs {
    Knobs { fault: 0, flicker: 0, config: Knobs::plain().config, ..Knobs::drawn(rng) }.lasting()
}

fn on_clean(sweep: &mut Sweep<'_>, call: Call, cuts: Cuts) -> Swept {
    let on = On::Device(clean(&mut sweep.rng));
    sweep.probe(call, on, cuts)
}

/// Lengths around each power of two that is longer than the short calls.
fn around_powers(scale: Scale, near: &[isize]) -> Vec<usize> {
    let last = if scale == Scale::Long { 20 } else { 17 };
    (10..=last).flat_map(|power| near.iter().map(move |near| (1_usize << power).saturating_add_signed(*near))).collect()
}

/// The start of a chunk's half page from which `length` bytes fit below the range limit.
fn half_page(rng: &mut Rng, length: usize) -> u32 {
    rng.between(0, (RANGE_LIMIT - length as u32) / CHUNK) * CHUNK
}

fn saves(sweep: &mut Sweep<'_>) -> Swept {
    for length in around_powers(sweep.scale, &[-4, 0, 4, 128]) {
        let addr = half_page(&mut sweep.rng, length);
        save(sweep, addr, length, Cuts::Late(1))?;
    }
    let highest = (RANGE_LIMIT - LONG as u32) / CHUNK * CHUNK;
    for addr in [0, 0x80, 0xFF80, 0x00FF_0000, highest, highest + CHUNK] {
        save(sweep, addr, LONG, Cuts::Late(2))?;
    }
    // Refused after all whole chunks, at the first chunk and at the second.
    for (addr, length) in [(0x80, LONG + 2), (0x80, LONG + 1), (0x84, LONG), (0x04, LONG)] {
        save(sweep, addr, length, Cuts::Late(1))?;
    }
    for faulty in [255, 256, 511, 512, 513, 530] {
        let call = Call::WritePages { addr: 0x0003_0000, data: sweep.rng.bytes(LONG) };
        let knobs = Knobs { faulty: Some(faulty), ..clean(&mut sweep.rng) };
        sweep.probe(call, On::Device(knobs), Cuts::Late(1))?;
    }
    let data = sweep.rng.bytes(256);
    polls(sweep, Call::WritePages { addr: 0x0012_0000, data })
}

fn save(sweep: &mut Sweep<'_>, addr: u32, length: usize, cuts: Cuts) -> Swept {
    let data = sweep.rng.bytes(length);
    on_clean(sweep, Call::WritePages { addr, data }, cuts)
}

fn reads(sweep: &mut Sweep<'_>, make: &dyn Fn(u32, usize) -> Call) -> Swept {
    // Every number of words in a chunk's transfer.
    for length in 1..=520 {
        let addr = sweep.rng.word() >> 1;
        on_clean(sweep, make(addr, length), Cuts::Random(1))?;
    }
    for length in around_powers(sweep.scale, &[-1, 0, 1]) {
        let addr = sweep.rng.sized();
        on_clean(sweep, make(addr, length), Cuts::Late(1))?;
    }
    let past_the_array = ARRAY - LONG as u32 / 2;
    for addr in [0, 0xFFFF, past_the_array, ARRAY, 0x8000_0001, u32::MAX - LONG as u32] {
        on_clean(sweep, make(addr, LONG), Cuts::Late(2))?;
    }
    Ok(())
}

/// All sectors there are, in every order and with each of some places failing; lists that a count of 8 or 16 bits takes for
/// short ones; and two sectors that are busy for long.
fn lists(sweep: &mut Sweep<'_>) -> Swept {
    for list in sectors::orders(&mut sweep.rng) {
        on_clean(sweep, Call::EraseSectors { list }, Cuts::Late(4))?;
    }
    for faulty in [0, 1, 126, 127, 128, 253, 254] {
        let call = Call::EraseSectors { list: sectors::distinct(&mut sweep.rng, 255) };
        let knobs = Knobs { faulty: Some(faulty), ..clean(&mut sweep.rng) };
        sweep.probe(call, On::Device(knobs), Cuts::Late(2))?;
    }
    for length in [257, 258, 511, 512, 513, 65_535, 65_536, 65_537, 65_792, LONG, 131_073] {
        sweep.pure(Call::EraseSectors { list: sectors::cycled(length) })?;
    }
    polls(sweep, Call::EraseSectors { list: vec![0x0012_0000, 0x0003_0000] })
}

/// The largest calls: every chunk that one save can have, and reads of more than the array has, whose addresses go round while
/// their places in the buffer do not.
fn largest(kind: Kind, rng: &mut Rng) -> Vec<Call> {
    let (addr, length) = (0x00FF_FF00, LARGEST_READ);
    match kind {
        Kind::WritePages => vec![Call::WritePages { addr: 0, data: rng.bytes(LARGEST_SAVE) }],
        Kind::ReadPageRead => vec![Call::ReadPageRead { addr, length }],
        Kind::ReadFastRead => [false, true].map(|dummy_byte| Call::ReadFastRead { addr, dummy_byte, length }).to_vec(),
        Kind::EraseSectors => vec![Call::EraseSectors { list: sectors::cycled(LARGEST_LIST) }],
        _ => Vec::new(),
    }
}

/// Program and erase on a device that is busy for long.
fn polls(sweep: &mut Sweep<'_>, call: Call) -> Swept {
    let busy = (LONG as u32, LONG as u32);
    let on = On::Device(Knobs { busy, ..clean(&mut sweep.rng) });
    sweep.probe(call, on, Cuts::Late(1))
}

/// A transfer of each kind with many words to drain, and one with a reply that lets itself be waited for.
fn waits(kind: Kind, sweep: &mut Sweep<'_>) -> Swept {
    if kind < Kind::New {
        return Ok(());
    }
    for (waiting, late) in [(LONG, 0), (0, LONG as u32)] {
        let call = short(kind, &mut sweep.rng);
        let on = On::Device(Knobs { waiting, late, ..Knobs::plain().lasting() });
        sweep.probe(call, on, Cuts::Late(1))?;
    }
    Ok(())
}

/// A call of a kind that makes transfers.
fn short(kind: Kind, rng: &mut Rng) -> Call {
    let addr = rng.between(0, 0xFE) << 16;
    match kind {
        Kind::EraseSector => Call::EraseSector { addr },
        Kind::Program => Call::Program { addr, data: rng.bytes(8) },
        Kind::WritePages => Call::WritePages { addr, data: rng.bytes(8) },
        Kind::ReadPageRead => Call::ReadPageRead { addr, length: 8 },
        Kind::ReadFastRead => Call::ReadFastRead { addr, dummy_byte: rng.flag(), length: 8 },
        Kind::EraseSectors => Call::EraseSectors { list: sectors::distinct(rng, 2) },
        _ => super::random_call(kind, rng),
    }
}

#[cfg(test)]
mod tests {
    use super::*;
    use crate::check::Probe;

    /// Address and length of the long calls of a kind.
    fn spans(kind: Kind, scale: Scale) -> Vec<(u32, usize)> {
        let mut spans = Vec::new();
        let mut visit = |probe: Probe| {
            match probe.call {
                Call::WritePages { addr, data } => spans.push((addr, data.len())),
                Call::ReadPageRead { addr, length } | Call::ReadFastRead { addr, length, .. } => {
                    spans.push((addr, length));
                }
                _ => {}
            }
            Ok(())
        };
        long(kind, &mut Sweep::new(scale, Rng::new(1), &mut visit)).expect("no run");
        spans
    }

    #[test]
    fn saves_lie_around_powers_of_two_and_reach_the_last_chunk() {
        let spans = spans(Kind::WritePages, Scale::Default);
        for power in (10..=17).chain([23]) {
            assert!(spans.iter().any(|(_, length)| (1 << power..2 << power).contains(length)), "2^{power}");
        }
        assert!(spans.iter().any(|(addr, length)| *addr as usize + length == 0x00FF_FFFC));
        assert!(spans.iter().filter(|(_, length)| *length == LONG).count() > 10);
    }

    #[test]
    fn reads_lie_around_powers_of_two_and_go_past_2_24() {
        for kind in [Kind::ReadPageRead, Kind::ReadFastRead] {
            let spans = spans(kind, Scale::Default);
            for power in (0..=17).chain([24]) {
                assert!(spans.iter().any(|(_, length)| (1 << power..2 << power).contains(length)), "2^{power}");
            }
            assert!(spans.iter().any(|(addr, length)| *addr < ARRAY && *addr as usize + length > ARRAY as usize));
            assert!(spans.iter().any(|(addr, length)| *addr as usize + length == 0xFFFF_FFFF));
        }
    }
}
