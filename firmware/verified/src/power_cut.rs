// Made by tools/erase from crates/power_cut/src/lib.rt; a change belongs there.
//! `write_pages` and `erase_sectors` from their start to their end: data or list are lent once, and one
//! operation is stepped over replies and a log. The contract of `write_pages` states what a power cut can
//! leave in the flash, that of `erase_sectors` which sectors its log shows finished.

use crate::qspi_calls::run;
use crate::qspi_calls::run::Ran;
use crate::qspi_calls::sectors;
use crate::qspi_calls::start;
use crate::qspi_operation;
use crate::zedboard_bsp::qspi_spansion::LONGEST_LIST;

// How it ended, the used counts, and the bytes of the chunks that ended clean.
#[derive(Clone, Copy, Debug, PartialEq, Eq)]
pub struct PagesRan {
    pub ran: Ran,
    pub programmed: usize,
}

pub fn write_pages(addr: u32, data: &[u8], replies: &[u32], log: &mut [u32]) -> PagesRan {
    let op = start::write_pages(addr, data.len(), log.len());
    let mut buffer = [0u8; 0];
    let s = qspi_operation::run(op, data, &mut buffer, log, replies);
    let programmed = qspi_operation::counted(s.op);
    let ran = run::finish(s);
    PagesRan { ran, programmed }
}

// How it ended, the used counts, the sectors that ended clean, and the place of the entry that the list was
// refused for: 0 and no `None` where it was refused for none, as clause `place` says.
#[derive(Clone, Copy, Debug, PartialEq, Eq)]
pub struct SectorsRan {
    pub ran: Ran,
    pub finished: usize,
    pub place: u32,
}

pub fn erase_sectors(list: &[u32], replies: &[u32], log: &mut [u32]) -> SectorsRan {
    let op = start::erase_sectors(list, log.len());
    let numbers = sectors::numbered(list);
    // All of them: a longer list is refused before any access, whatever its run is lent.
    let count = list.len().min(LONGEST_LIST);
    let mut buffer = [0u8; 0];
    let s = qspi_operation::run(op, &numbers[..count], &mut buffer, log, replies);
    let finished = qspi_operation::counted(s.op);
    let place = run::value(s);
    let ran = run::finish(s);
    SectorsRan {
        ran,
        finished,
        place,
    }
}
