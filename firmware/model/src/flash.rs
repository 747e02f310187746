//! The flash chip: bytes are shifted in and out while chip select is low, and the command takes effect as it rises.
//! While a program or an erase is under way only status read and clear status are obeyed.

use crate::array::{Array, PAGE, SECTOR};
use crate::settings::{Failure, Mode, Settings};
use std::ops::Range;

const WRITE_REGISTERS: u8 = 0x01;
const PAGE_PROGRAM: u8 = 0x02;
const READ: u8 = 0x03;
const WRITE_DISABLE: u8 = 0x04;
const READ_STATUS_1: u8 = 0x05;
const WRITE_ENABLE: u8 = 0x06;
const FAST_READ: u8 = 0x0B;
const CLEAR_STATUS: u8 = 0x30;
const READ_CONFIG: u8 = 0x35;
const READ_ID: u8 = 0x9F;
const SECTOR_ERASE: u8 = 0xD8;

const BUSY: u8 = 1;
const LATCH: u8 = 1 << 1;
const ERRORS: u8 = 1 << 5 | 1 << 6;

/// What the chip shows where it drives nothing.
const UNDRIVEN: u8 = 0xFF;

enum Work {
    Program { addr: u32, bytes: Vec<u8> },
    Erase { addr: u32 },
}

/// Work under way, and the status reads that will still show it.
struct UnderWay {
    work: Work,
    reads: u32,
    failure: Option<Failure>,
}

pub(crate) struct Flash {
    pub array: Array,
    /// Without busy and latch.
    status: u8,
    pub config_register: u8,
    ids: [u8; 8],
    dummy_bytes: usize,
    ends: bool,
    latch: bool,
    under_way: Option<UnderWay>,
    /// Failed work shows busy until the status is cleared.
    hangs: bool,
    /// Programs and erases begun.
    works: u32,
    /// Bytes in since chip select fell.
    command: Vec<u8>,
}

impl Flash {
    pub fn new(settings: &Settings) -> Flash {
        Flash {
            array: Array::default(),
            status: settings.status & !(BUSY | LATCH),
            config_register: settings.config_register,
            ids: settings.ids,
            dummy_bytes: settings.dummy_byte.into(),
            ends: settings.mode != Mode::BusyForEver,
            latch: false,
            under_way: None,
            hangs: false,
            works: 0,
            command: Vec::new(),
        }
    }

    pub fn status(&self) -> u8 {
        let busy = if self.is_busy() { BUSY } else { 0 };
        self.status | busy | if self.latch { LATCH } else { 0 }
    }

    pub fn in_doubt(&self) -> Option<Range<u32>> {
        Some(match &self.under_way.as_ref()?.work {
            Work::Erase { addr } => addr / SECTOR * SECTOR..addr / SECTOR * SECTOR + SECTOR,
            Work::Program { addr, bytes } if addr % PAGE + bytes.len() as u32 <= PAGE => {
                *addr..addr + bytes.len() as u32
            }
            Work::Program { addr, .. } => addr / PAGE * PAGE..addr / PAGE * PAGE + PAGE,
        })
    }

    fn is_busy(&self) -> bool {
        self.under_way.is_some() || self.hangs
    }

    /// Takes a byte and gives the one that comes out beside it.
    pub fn shift(&mut self, byte: u8) -> u8 {
        self.command.push(byte);
        let at = self.command.len() - 1;
        match self.command[0] {
            READ_STATUS_1 if at > 0 => self.show_status(),
            _ if self.is_busy() => UNDRIVEN,
            READ_CONFIG if at > 0 => self.config_register,
            READ_ID if at > 0 => self.ids.get(at - 1).copied().unwrap_or(UNDRIVEN),
            READ => self.read(at, 4),
            FAST_READ => self.read(at, 4 + self.dummy_bytes),
            _ => UNDRIVEN,
        }
    }

    fn read(&self, at: usize, first: usize) -> u8 {
        if at < first { UNDRIVEN } else { self.array.byte(self.address().wrapping_add((at - first) as u32)) }
    }

    /// The command's address, high byte first.
    fn address(&self) -> u32 {
        u32::from_be_bytes([0, self.command[1], self.command[2], self.command[3]])
    }

    /// Each status read brings work under way nearer to its end.
    fn show_status(&mut self) -> u8 {
        let shown = self.status();
        if let Some(under_way) = &mut self.under_way {
            under_way.reads = under_way.reads.saturating_sub(1);
        }
        self.end_work();
        shown
    }

    /// Ends the work once no further status read is to show it. Failed work leaves the array as it was.
    fn end_work(&mut self) {
        let Some(under_way) = self.under_way.take_if(|under_way| under_way.reads == 0 && self.ends) else {
            return;
        };
        match (under_way.failure, under_way.work) {
            (Some(failure), _) => {
                self.status |= failure.bits;
                self.hangs = failure.stays_busy;
            }
            (None, Work::Program { addr, bytes }) => self.array.program(addr, &bytes),
            (None, Work::Erase { addr }) => self.array.erase(addr),
        }
    }

    /// Chip select rises.
    pub fn take_effect(&mut self, settings: &Settings) {
        let command = std::mem::take(&mut self.command);
        match command[..] {
            [CLEAR_STATUS, ..] => {
                self.status &= !ERRORS;
                self.hangs = false;
            }
            _ if self.is_busy() => {}
            [WRITE_ENABLE, ..] => self.latch = true,
            [WRITE_DISABLE, ..] => self.latch = false,
            [WRITE_REGISTERS, ref registers @ ..] if self.latch => self.write_registers(registers),
            [PAGE_PROGRAM, a, b, c, ref bytes @ ..] if self.latch && !bytes.is_empty() => {
                let addr = u32::from_be_bytes([0, a, b, c]);
                self.begin(Work::Program { addr, bytes: bytes.to_vec() }, settings);
            }
            [SECTOR_ERASE, a, b, c, ..] if self.latch => {
                self.begin(Work::Erase { addr: u32::from_be_bytes([0, a, b, c]) }, settings);
            }
            _ => {}
        }
    }

    fn write_registers(&mut self, registers: &[u8]) {
        self.latch = false;
        if let Some(status) = registers.first() {
            self.status = self.status & ERRORS | status & !(ERRORS | BUSY | LATCH);
        }
        if let Some(config) = registers.get(1) {
            self.config_register = *config;
        }
    }

    fn begin(&mut self, work: Work, settings: &Settings) {
        let failure = settings.failure.filter(|failure| failure.work == self.works);
        let reads = failure.map_or(settings.busy, |failure| failure.after);
        self.latch = false;
        self.works += 1;
        self.under_way = Some(UnderWay { work, reads, failure });
        self.end_work();
    }
}
