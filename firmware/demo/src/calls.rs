//! Calls of the flash, a line each: how it ended, with the paper's number of a refusal, and what it did.
use crate::board::BoardFlash;
use crate::{say, stack};
use core::fmt;
use qspi_flash::Error;
use verified::zedboard_bsp::qspi_spansion::device_id::BaseDeviceId;

const SECTOR: u32 = 0x03_0000;
const LAST_SECTOR: u32 = 0xFF_0000;
/// Sectors that are erased by one call, the later one first.
const LIST: [u32; 2] = [0x05_0000, 0x04_0000];
const LONGEST: usize = 1024;
const TOP: u32 = 0xFF_FF80;
const TOP_LENGTH: usize = 124;

/// The bytes that are saved; no two chunks are alike.
static DATA: [u8; LONGEST] = data();

const fn data() -> [u8; LONGEST] {
    let mut data = [0; LONGEST];
    let mut at = 0;
    while at < LONGEST {
        data[at] = (at * 7 + at / 128 * 3 + 3) as u8;
        at += 1;
    }
    data
}

pub fn run(flash: &mut BoardFlash, buffer: &mut [u8]) {
    base_id(flash);
    extended_id(flash);
    erase(flash, SECTOR);
    save(flash, SECTOR + 0x100, LONGEST);
    page_read(flash, SECTOR + 0x100, &mut buffer[..LONGEST]);
    fast_read(flash, SECTOR + 0x100, &mut buffer[..LONGEST]);
    say!("a save that crosses a page ends before its second chunk");
    save(flash, SECTOR + 0x40, 256);
    page_read(flash, SECTOR + 0x40, &mut buffer[..128]);
    say!("a list is tested before its first sector is erased");
    save(flash, LIST[0], 128);
    save(flash, LIST[1], 128);
    erase_list(flash, &[LIST[0], LIST[1], LIST[0]]);
    page_read(flash, LIST[0], &mut buffer[..128]);
    erase_list(flash, &LIST);
    page_read(flash, LIST[0], &mut buffer[..128]);
    page_read(flash, LIST[1], &mut buffer[..128]);
    say!("the array's last byte is out of range, and so is its sector");
    erase(flash, LAST_SECTOR);
    save(flash, TOP, 128);
    save(flash, TOP, TOP_LENGTH);
    fast_read(flash, TOP, &mut buffer[..TOP_LENGTH]);
    say!("the stack has {} within {} bytes", if stack::has_stayed() { "stayed" } else { "NOT stayed" }, stack::ROOM);
    say!("END of the calls");
}

/// What the calls leave at an address outside of the first sector that they use.
pub fn left(at: usize) -> u8 {
    match at.checked_sub(TOP as usize) {
        Some(saved) if saved < TOP_LENGTH => DATA[saved],
        _ => 0xFF,
    }
}

/// How a call ended.
struct Ended(Option<Error>);

impl fmt::Display for Ended {
    fn fmt(&self, f: &mut fmt::Formatter) -> fmt::Result {
        match self.0 {
            None => f.write_str("done"),
            Some(error) => error.fmt(f),
        }
    }
}

/// The accesses of the last call.
fn accesses(flash: &mut BoardFlash) -> usize {
    flash.low_level().log().len() / 2
}

/// Manufacturer and device.
struct Id(BaseDeviceId);

impl fmt::Display for Id {
    fn fmt(&self, f: &mut fmt::Formatter) -> fmt::Result {
        write!(f, "{:02X} {:04X}", self.0.manufacturer_id(), self.0.device_id_raw())
    }
}

fn base_id(flash: &mut BoardFlash) {
    match flash.read_rdid_base() {
        Ok(id) => say!("read_rdid_base: done, {}", Id(id)),
        Err(error) => say!("read_rdid_base: {error}"),
    }
}

fn extended_id(flash: &mut BoardFlash) {
    match flash.read_rdid_extended() {
        Ok(id) => say!("read_rdid_extended: done, {}, sectors {:02X}", Id(id.base_id()), id.sector_arch_raw()),
        Err(error) => say!("read_rdid_extended: {error}"),
    }
}

fn erase(flash: &mut BoardFlash, addr: u32) {
    let ended = Ended(flash.erase_sector(addr).err());
    say!("erase_sector {addr:06X}: {ended}, {} accesses", accesses(flash));
}

fn erase_list(flash: &mut BoardFlash, list: &[u32]) {
    let ended = flash.erase_sectors(list);
    let (length, accesses) = (list.len(), accesses(flash));
    match ended {
        Ok(finished) => say!("erase_sectors, {length} of them: done, {finished} finished, {accesses} accesses"),
        Err(stopped) => say!("erase_sectors, {length} of them: {stopped}, {accesses} accesses"),
    }
}

fn save(flash: &mut BoardFlash, addr: u32, length: usize) {
    let (error, programmed) = match flash.write_pages(addr, &DATA[..length]) {
        Ok(programmed) => (None, programmed),
        Err(stopped) => (Some(stopped.error), stopped.programmed),
    };
    let (ended, accesses) = (Ended(error), accesses(flash));
    say!("write_pages {addr:06X}, {length} bytes: {ended}, {programmed} programmed, {accesses} accesses");
}

fn page_read(flash: &mut BoardFlash, addr: u32, found: &mut [u8]) {
    found.fill(0);
    let (length, ended) = (found.len(), Ended(flash.read_page_read(addr, found).err()));
    let (accesses, kept) = (accesses(flash), kept(found));
    say!("read_page_read {addr:06X}, {length} bytes: {ended}, {accesses} accesses, {kept}");
}

/// QEMU's flash asks for a dummy byte, as the part does.
fn fast_read(flash: &mut BoardFlash, addr: u32, found: &mut [u8]) {
    found.fill(0);
    let (length, ended) = (found.len(), Ended(flash.read_fast_read(addr, found, true).err()));
    let (accesses, kept) = (accesses(flash), kept(found));
    say!("read_fast_read {addr:06X}, {length} bytes: {ended}, {accesses} accesses, {kept}");
}

fn kept(found: &[u8]) -> &'static str {
    if found == &DATA[..found.len()] {
        "as saved"
    } else if found.iter().all(|&byte| byte == 0xFF) {
        "erased"
    } else {
        "NOT as saved"
    }
}
