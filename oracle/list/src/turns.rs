//! Turns of a run that some case must take, as its log shows them.

use crate::finished::{Transfer, transfers};

const ENABLE: u32 = 0x14;
const TX_DATA_FOUR: u32 = 0x1C;
const INTERRUPT_STATUS: u32 = 0x104;
const RX_DATA: u32 = 0x120;

const PAGE_PROGRAM: u32 = 0x02;
const RX_WAITS: u32 = 1 << 4;
const BUSY: u32 = 0x01;
const ERRORS: u32 = 0x60;

pub const NAMES: [&str; 7] = [
    "a word drained before a transfer",
    "a status read that shows no word",
    "a word shown and then hidden",
    "a wait for the last reply of a program",
    "a poll that shows busy",
    "an error bit with busy",
    "an error bit without busy",
];

/// Which of the turns a log has. The bits of the flash's status mean something where a call `polls` for them.
pub fn turns(log: &[u32], polls: bool) -> [bool; NAMES.len()] {
    let (mut drained, mut late, mut hidden) = (false, false, false);
    let (mut open, mut shown) = (false, false);
    for access in log.chunks_exact(2) {
        let waits = access[0] == INTERRUPT_STATUS && access[1] & RX_WAITS != 0;
        match access[0] {
            ENABLE => open = access[1] == 1,
            RX_DATA => drained |= !open,
            INTERRUPT_STATUS if open && !waits => {
                late = true;
                hidden |= shown;
            }
            _ => {}
        }
        shown = open && waits;
    }
    let statuses: Vec<u32> = transfers(log).iter().filter_map(Transfer::status).collect();
    let polled = |shows: fn(u32) -> bool| polls && statuses.iter().any(|status| shows(*status));
    [
        drained,
        late,
        hidden,
        waits_for_the_last(log),
        polled(|status| status & BUSY != 0 && status & ERRORS == 0),
        polled(|status| status & BUSY != 0 && status & ERRORS != 0),
        polled(|status| status & BUSY == 0 && status & ERRORS != 0),
    ]
}

/// A page program is shown no word although one of its replies is out, the last.
fn waits_for_the_last(log: &[u32]) -> bool {
    let mut out: usize = 0;
    log.chunks_exact(2).any(|access| {
        match access[0] {
            ENABLE => out = 0,
            TX_DATA_FOUR if out > 0 || access[1] & 0xFF == PAGE_PROGRAM => out += 1,
            RX_DATA => out = out.saturating_sub(1),
            _ => {}
        }
        out == 1 && access[0] == INTERRUPT_STATUS && access[1] & RX_WAITS == 0
    })
}
