//! Power cuts of saves on a simulated device, after each of their accesses.

mod common;

use common::{data, flash};
use model::{Model, Settings};
use qspi_flash::{Budget, Error, Flash, QspiLowLevel, WritePagesError};

const AMPLE: Budget = Budget { looks: 1000, busy: 1000 };
const SECTOR: u32 = 0x03_0000;

/// A save: where in the sector, and its bytes.
type Save = (usize, Vec<u8>);

/// What is found of saves in a row.
struct Found {
    /// How the last one ended.
    ended: Result<usize, WritePagesError>,
    /// How many bytes are in doubt.
    in_doubt: usize,
}

/// Makes saves in a row, of which the last has a log with room for so many accesses, which ends it as a cut does. The array is
/// held to their counts: a byte that is not in doubt is the old one AND what each finished chunk brought there.
fn cut(row: &[Save], accesses: usize) -> Found {
    let old: Vec<u8> = (0..1024).map(|i| if i / 16 % 3 == 0 { 0xFF } else { (i * 29) as u8 }).collect();
    let slow = Settings { looks: 2, busy: 3, ..Settings::default() };
    let mut board_log = vec![0; 4000];
    let (mut bus, mut long) = flash(Model::new(slow), &mut board_log, AMPLE).release().release();
    bus.bus.load(SECTOR, &old);
    let (mut expected, mut log) = (old, vec![0; 2 * accesses]);
    let ((place, new), before) = row.split_last().expect("a save");
    for (place, new) in before {
        let mut board = Flash::over(QspiLowLevel::new(bus, long, AMPLE));
        program(&mut expected, *place, new, counted(board.write_pages(SECTOR + *place as u32, new)));
        (bus, long) = board.release().release();
        assert!(bus.bus.is_at_rest() && bus.bus.in_doubt().is_none());
    }
    let mut board = Flash::over(QspiLowLevel::new(bus, &mut log, AMPLE));
    let ended = board.write_pages(SECTOR + *place as u32, new);
    let finished = counted(ended);
    program(&mut expected, *place, new, finished);
    // Of a save that ended by itself no chunk is under way.
    let next = if stopped_by_log(ended) { finished..new.len().min(finished + 128) } else { 0..0 };
    let model = &board.low_level().bus().bus;
    let mut in_doubt = 0;
    for (at, &expected) in expected.iter().enumerate() {
        let (addr, saved) = (SECTOR + at as u32, at.checked_sub(*place).filter(|saved| next.contains(saved)));
        if model.in_doubt().is_some_and(|doubt| doubt.contains(&addr)) {
            assert!(saved.is_some(), "byte {at} is in doubt after {accesses} accesses");
            in_doubt += 1;
        } else {
            // The next chunk is not begun, or done and not seen to be so.
            let done = saved.is_some_and(|saved| model.byte(addr) == expected & new[saved]);
            assert!(done || model.byte(addr) == expected, "byte {at} after {accesses} accesses");
        }
    }
    Found { ended, in_doubt }
}

fn stopped_by_log(ended: Result<usize, WritePagesError>) -> bool {
    ended.is_err_and(|stopped| stopped.error == Error::LogFull)
}

/// The bytes that a save counts, whatever its end.
fn counted(ended: Result<usize, WritePagesError>) -> usize {
    ended.unwrap_or_else(|stopped| stopped.programmed)
}

/// Programs the first bytes of a save.
fn program(array: &mut [u8], place: usize, new: &[u8], finished: usize) {
    for (byte, new) in array[place..].iter_mut().zip(&new[..finished]) {
        *byte &= new;
    }
}

/// Cuts the last save of a row after each of its accesses. How many there are, how many bytes were in doubt over all, and how
/// it ends uncut.
fn cut_everywhere(row: &[Save]) -> (usize, usize, Result<usize, WritePagesError>) {
    let (mut accesses, mut in_doubt) = (0, 0);
    loop {
        let found = cut(row, accesses);
        in_doubt += found.in_doubt;
        if !stopped_by_log(found.ended) {
            return (accesses, in_doubt, found.ended);
        }
        accesses += 1;
    }
}

/// What demand 3 says of a save, after each of its accesses.
#[test]
fn a_save_that_is_cut_after_any_access_leaves_what_its_count_says() {
    let (accesses, in_doubt, ended) = cut_everywhere(&[(0x100, data(388))]);
    assert_eq!(ended, Ok(388));
    assert!(accesses > 600 && in_doubt > 10_000, "{accesses} accesses, {in_doubt} bytes in doubt");
}

/// What document 02, U2, says of saves in a row, after each of their accesses. They lie over one another; the
/// second is refused by 5 after a chunk, the third by 4 before any.
#[test]
fn saves_in_a_row_that_are_cut_after_any_access_leave_what_their_counts_say() {
    let other = |length| data(length).into_iter().rev().collect();
    let row = [(0x100, data(388)), (0x140, other(256)), (0x120, data(6)), (0x180, other(132)), (0x100, data(0))];
    let stopped = |error, programmed| Err(WritePagesError { error, programmed });
    let ends = [Ok(388), stopped(Error::CrossesPageBoundary, 128), stopped(Error::NotAligned, 0), Ok(132), Ok(0)];
    for (last, expected) in ends.into_iter().enumerate() {
        let (accesses, in_doubt, ended) = cut_everywhere(&row[..=last]);
        assert_eq!(ended, expected);
        assert_eq!((accesses > 0, in_doubt > 1000), (counted(ended) > 0, counted(ended) > 0), "save {last}");
    }
}
