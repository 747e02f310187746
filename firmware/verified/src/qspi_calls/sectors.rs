// Made by tools/erase from crates/qspi_calls/src/sectors.rt; a change belongs there.
//! The list of `erase_sectors`: what its entries are refused for, and the bytes that it is lent as.
//! Document 02, U1.

use crate::qspi_operation;
use crate::qspi_script::Status;
use crate::zedboard_bsp::qspi_spansion::LONGEST_LIST;
use crate::zedboard_bsp::qspi_spansion::SECTOR_SIZE;
use crate::zedboard_bsp::qspi_spansion::limits;

// What a sector is refused for: rule 1, then rule 2. One that meets neither goes on: `Going` and no `Option`, as
// clause `status` says, and as the starts hand it on for one sector.
pub fn sector_status(addr: u32) -> Status {
    if limits::out_of_range(addr, SECTOR_SIZE) {
        Status::OutOfRange
    } else if limits::starts_sector(addr) {
        Status::Going
    } else {
        Status::Alignment
    }
}

// The first place that meets rule 1 or 2.
pub fn first_refused(list: &[u32]) -> Option<usize> {
    list.iter()
        .position(|&addr| !qspi_operation::is_going(sector_status(addr)))
}

fn is_among(earlier: &[u32], addr: u32) -> bool {
    earlier.contains(&addr)
}

// The first place that repeats an earlier one.
pub fn first_repeat(list: &[u32]) -> Option<usize> {
    for (at, &addr) in list.iter().enumerate() {
        if is_among(&list[..at], addr) {
            return Some(at);
        }
    }
    None
}

// The list as an operation is lent it, a byte a sector: its number. There is no heap on the board, so there is
// room for the longest. A call that is not refused names no sector behind these.
pub fn numbered(list: &[u32]) -> [u8; LONGEST_LIST] {
    let mut numbers = [0u8; LONGEST_LIST];
    let count = list.len().min(LONGEST_LIST);
    for (at, &addr) in list[..count].iter().enumerate() {
        numbers[at] = limits::sector_number(addr);
    }
    numbers
}
