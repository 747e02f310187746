//! Power cuts of a save. Some accesses of it are made, and it is left there; `firmware/run` resets the machine. After
//! the reset the sector is read back and held to the count of programmed bytes, and after the last cut the rest of the array.
use crate::board::{BUDGET, BoardFlash};
use crate::record::Record;
use crate::{calls, say, start::halt};
use core::ops::Range;
use qspi_flash::{Error, Flash, QspiLowLevel};
use verified::zedboard_bsp::qspi_spansion::{RECOMMENDED_PROGRAM_PAGE_SIZE as CHUNK, SECTOR_SIZE};
use verified::zynq7000::qspi::{CONFIG, Config, TX_DATA_00};

const SECTOR: u32 = 0x03_0000;
/// Where in the sector the save begins.
const PLACE: usize = 0x100;
const LENGTH: usize = 3 * CHUNK;
/// So much of the sector is programmed before the save, which lies in it.
const OLD_LENGTH: usize = 0x400;
const ARRAY: usize = 0x100_0000;
const PAGE_PROGRAM: u32 = 0x02;

/// The byte that the sector holds before the save. Rows of it are erased, so that bits are met that the save clears and
/// bits that were clear.
const fn old(at: usize) -> u8 {
    match at / 16 % 3 {
        1 | 2 if at < OLD_LENGTH => (at * 29 + at / 256) as u8 ^ 0x5A,
        _ => 0xFF,
    }
}

/// The byte of the save; no two chunks are alike.
const fn new(at: usize) -> u8 {
    (at * 7 + at / CHUNK * 11 + 3) as u8
}

/// What the sector begins with before the save.
static OLD: [u8; OLD_LENGTH] = {
    let mut bytes = [0; OLD_LENGTH];
    let mut at = 0;
    while at < OLD_LENGTH {
        bytes[at] = old(at);
        at += 1;
    }
    bytes
};

static NEW: [u8; LENGTH] = {
    let mut bytes = [0; LENGTH];
    let mut at = 0;
    while at < LENGTH {
        bytes[at] = new(at);
        at += 1;
    }
    bytes
};

/// Makes as many accesses of the save as the record says, and waits for the power to go: a log with room for so many ends
/// the save there.
pub fn cut(mut flash: BoardFlash, next: Record) -> ! {
    prepare(&mut flash).unwrap_or_else(|error| panic!("the sector could not be prepared: {error}"));
    let (bus, log) = flash.release().release();
    let mut flash = Flash::over(QspiLowLevel::new(bus, &mut log[..2 * next.accesses as usize], BUDGET));
    let (programmed, over) = match flash.write_pages(SECTOR + PLACE as u32, &NEW) {
        Ok(all) => (all as u32, true),
        Err(stopped) if stopped.error == Error::LogFull => (stopped.programmed as u32, false),
        Err(stopped) => panic!("the save: {stopped}"),
    };
    Record { programmed, begun: begun(flash.low_level().log()), over, ..next }.leave();
    say!("cut {} programmed {programmed}", next.accesses);
    halt()
}

/// Makes the sector what `old` says.
fn prepare(flash: &mut BoardFlash) -> Result<(), Error> {
    flash.erase_sector(SECTOR)?;
    flash.write_pages(SECTOR, &OLD).map_err(|stopped| stopped.error)?;
    Ok(())
}

/// The chunks of which a log shows a data word: the second word of a page program, and of that transfer.
fn begun(log: &[u32]) -> u32 {
    let (mut chunks, mut sent, mut programs) = (0, 0, false);
    for access in log.chunks_exact(2) {
        let (register, value) = (access[0], access[1]);
        if register == CONFIG.into() && value >> Config::PERIPHERAL_CHIP_SELECT & 1 == 1 {
            sent = 0;
        }
        if register == TX_DATA_00.into() {
            sent += 1;
            programs = if sent == 1 { value & 0xFF == PAGE_PROGRAM } else { programs };
            chunks += u32::from(sent == 2 && programs);
        }
    }
    chunks
}

/// Holds the sector to the record of the cut, and gives the next one; none after the last.
pub fn judge(flash: &mut BoardFlash, buffer: &mut [u8], record: Record) -> Option<Record> {
    let Record { accesses, programmed, over, .. } = record;
    let status = flash.read_status_register_1().map_or(0xFF, |status| status.0);
    assert!(status == 0, "the flash had no power cut, its status is {status:02X}");
    let found =
        read_back(flash, buffer, record).unwrap_or_else(|error| panic!("the sector could not be read: {error}"));
    match found.wrong {
        None => say!("cut {accesses} right"),
        Some(wrong) => say!("cut {accesses} wrong: programmed {programmed}, {wrong}"),
    }
    let wrong = record.wrong + u32::from(found.wrong.is_some());
    let in_doubt = record.in_doubt + u32::from(found.in_doubt);
    if over {
        assert!(programmed as usize == LENGTH, "the save of {LENGTH} bytes ended after {programmed}");
        judge_rest(flash, buffer);
        say!("END of the cuts: {wrong} wrong, {in_doubt} found a chunk begun that was not counted");
        return None;
    }
    Some(Record { accesses: accesses + 1, wrong, in_doubt, ..Record::FIRST })
}

/// Holds what no cut may have touched: the array outside of the sector.
fn judge_rest(flash: &mut BoardFlash, buffer: &mut [u8]) {
    let sector = SECTOR as usize;
    for part in [0..sector, sector + SECTOR_SIZE..ARRAY] {
        let found = read_part(flash, buffer, part, |at| Some(calls::left(at)));
        let found = found.unwrap_or_else(|error| panic!("the array could not be read: {error}"));
        if let Some(wrong) = found.wrong {
            say!("rest wrong: {wrong}");
            return;
        }
    }
    say!("rest right");
}

/// What was found of a part of the array.
struct Found {
    /// The first byte that is not as expected.
    wrong: Option<Wrong>,
    /// Whether a byte of which nothing is expected is not as before the save.
    in_doubt: bool,
}

#[derive(Clone, Copy)]
struct Wrong {
    at: usize,
    found: u8,
    expected: u8,
}

impl core::fmt::Display for Wrong {
    fn fmt(&self, f: &mut core::fmt::Formatter) -> core::fmt::Result {
        let Wrong { at, found, expected } = *self;
        write!(f, "at {at:06X} found {found:02X}, expected {expected:02X}")
    }
}

/// Reads the sector, and holds it to the record of a cut.
fn read_back(flash: &mut BoardFlash, piece: &mut [u8], record: Record) -> Result<Found, Error> {
    let sector = SECTOR as usize;
    read_part(flash, piece, sector..sector + SECTOR_SIZE, |at| expected(record, at - sector))
}

/// Reads a part of the array piece by piece, and holds it to what is expected at each address.
fn read_part(
    flash: &mut BoardFlash,
    piece: &mut [u8],
    part: Range<usize>,
    expected: impl Fn(usize) -> Option<u8>,
) -> Result<Found, Error> {
    let mut all = Found { wrong: None, in_doubt: false };
    for from in part.step_by(piece.len()) {
        flash.read_page_read(from as u32, piece)?;
        for (at, &found) in (from..).zip(piece.iter()) {
            match expected(at) {
                None => all.in_doubt |= found != old(at - SECTOR as usize),
                Some(expected) if found != expected => all.wrong = all.wrong.or(Some(Wrong { at, found, expected })),
                Some(_) => {}
            }
        }
    }
    Ok(all)
}

/// What the sector has to hold after a cut; nothing is said of a byte in doubt.
///
/// A chunk is in doubt from its first data word on until it is counted: QEMU's flash programs each byte as it arrives.
/// The paper's programs the page as chip select rises.
fn expected(record: Record, at: usize) -> Option<u8> {
    let Some(saved) = at.checked_sub(PLACE) else { return Some(old(at)) };
    let finished = record.programmed as usize;
    let is_begun = record.begun as usize > finished / CHUNK;
    if saved < finished {
        Some(old(at) & new(saved))
    } else if is_begun && saved < finished + CHUNK {
        None
    } else {
        Some(old(at))
    }
}
