//! One case in all ways: the archive, the run of the erased package, its driver stepped, and a whole call through that.
//! Ends and the whole memory are compared, with words and bytes behind what was lent; a panic is a difference too.

use crate::archive;
use crate::case::Case;
use replay::call::Ended;
use replay::ways::{self, Lent};
use std::panic::{AssertUnwindSafe, catch_unwind};

/// Words and bytes behind what is lent.
const BEHIND: usize = 4;

#[derive(Default)]
struct Room {
    log: Vec<u32>,
    buffer: Vec<u8>,
}

/// The memory of the ways, used again for each case.
#[derive(Default)]
pub(crate) struct Rooms {
    archive: Room,
    run: Room,
    stepped: Room,
    driven: Room,
}

impl Room {
    fn refill(&mut self, case: &Case) {
        self.log.clear();
        self.log.extend((0..case.room + BEHIND).map(|i| case.junk ^ (i as u32).wrapping_mul(0x0101_0101)));
        self.buffer.clear();
        self.buffer.extend((0..case.buffer + BEHIND).map(|i| case.junk as u8 ^ i as u8));
    }

    fn lent<'a>(&'a mut self, case: &'a Case) -> Lent<'a> {
        let (buffer, log) = (&mut self.buffer[..case.buffer], &mut self.log[..case.room]);
        Lent { list: &case.list, data: case.data, buffer, log }
    }
}

/// How the case ended in all ways, or what differs.
pub(crate) fn check(case: &Case, rooms: &mut Rooms) -> Result<Ended, String> {
    let Rooms { archive, run, stepped, driven } = rooms;
    for room in [&mut *archive, &mut *run, &mut *stepped, &mut *driven] {
        room.refill(case);
    }
    let lent = archive.lent(case);
    let proved = archive::call(case, lent.buffer, lent.log);
    let ran = caught(|| ways::run(case.call, &case.replies, run.lent(case)));
    let ran = ran.ok_or("the run panics")?;
    same("run", &proved, archive, &ran, run)?;
    let ended = caught(|| ways::stepped(case.call, &case.replies, stepped.lent(case)));
    let ended = ended.ok_or("a step panics")?.map_err(|apart| format!("the steps contradict themselves: {apart:?}"))?;
    same("steps", &proved, archive, &ended, stepped)?;
    let ended = caught(|| ways::driven(case.call, &case.replies, driven.lent(case)));
    same("driver", &proved, archive, &ended.ok_or("the driver panics")?, driven)?;
    Ok(proved)
}

/// None where it panics: a sum that wraps, or a place out of bounds.
pub(crate) fn caught<T>(way: impl FnOnce() -> T) -> Option<T> {
    catch_unwind(AssertUnwindSafe(way)).ok()
}

fn same(way: &str, proved: &Ended, archive: &Room, ended: &Ended, room: &Room) -> Result<(), String> {
    if proved != ended {
        return Err(format!("the ends differ\narchive: {proved:X?}\n{way}: {ended:X?}"));
    }
    if let Some(at) = first_difference(&archive.log, &room.log) {
        let (a, b) = (archive.log[at], room.log[at]);
        return Err(format!("log word {at} differs: archive {a:08X}, {way} {b:08X}"));
    }
    if let Some(at) = first_difference(&archive.buffer, &room.buffer) {
        let (a, b) = (archive.buffer[at], room.buffer[at]);
        return Err(format!("buffer byte {at} differs: archive {a:02X}, {way} {b:02X}"));
    }
    Ok(())
}

/// The place; equal memory, which is the rule, is told by one comparison.
fn first_difference<T: PartialEq>(a: &[T], b: &[T]) -> Option<usize> {
    if a == b { None } else { a.iter().zip(b).position(|(a, b)| a != b) }
}
