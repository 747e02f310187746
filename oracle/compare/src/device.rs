//! A controller with a flash behind it, as document 01 defines them under "The flash, as defined here". What the definition
//! leaves free (when a word goes out, how many reads show busy, the bits without meaning) is drawn at random within knobs.

use crate::rng::Rng;
use recorder::Source;
use std::collections::{BTreeMap, VecDeque};

const CONFIG: u32 = 0x00;
const INTERRUPT_STATUS: u32 = 0x04;
const TX_DATA_FOUR: u32 = 0x1C;
const RX_DATA: u32 = 0x20;
const TX_DATA_ONE: u32 = 0x80;
const TX_DATA_TWO: u32 = 0x84;
const TX_DATA_THREE: u32 = 0x88;

const RX_WAITS: u32 = 1 << 4;
const CHIP_SELECT: u32 = 1 << 10;
const MANUAL_START: u32 = 1 << 16;

const BUSY: u8 = 1;
const LATCH: u8 = 1 << 1;
const ERASE_ERROR: u8 = 1 << 5;
const PROGRAM_ERROR: u8 = 1 << 6;

const SECTOR_PAGES: u32 = 256;

/// The config register between transfers: bits 10, 14 and 15 set.
pub const IDLE_CONFIG: u32 = 0x8008_C4C1;

/// What a run of the device is like.
#[derive(Clone, Debug)]
pub struct Knobs {
    /// RX words that wait at the start and must be drained.
    pub waiting: usize,
    /// Chance in percent that a released word goes out before an access, and then the next one too.
    pub pace: u32,
    /// A program or erase shows busy for so many status reads: at least, and at most.
    pub busy: (u32, u32),
    /// Chance in percent that a program or erase ends in an error.
    pub fault: u32,
    /// The program or erase with this number, from 0 on, ends in its error whatever the chance is.
    pub faulty: Option<u32>,
    /// Chance in percent that a status read hides a waiting word: of two reads in a row the second may then lack it.
    pub flicker: u32,
    /// The first words wait hidden for so many interrupt status reads.
    pub late: u32,
    /// The controller's config register at the start.
    pub config: u32,
    pub status: u8,
    pub config_register: u8,
    pub ids: [u8; 8],
    /// Reads that are answered before the replies end.
    pub reads: usize,
    /// Log words of a live run: enough for most, and an end for one that polls for ever.
    pub room: usize,
}

impl Knobs {
    /// A quick device that shows no error: one S25FL256S.
    pub fn plain() -> Self {
        Knobs {
            waiting: 0,
            pace: 100,
            busy: (0, 0),
            fault: 0,
            faulty: None,
            flicker: 0,
            late: 0,
            config: IDLE_CONFIG,
            status: 0,
            config_register: 0,
            ids: [0x01, 0x02, 0x19, 0x4D, 0x01, 0x80, b'R', b'0'],
            reads: 1 << 17,
            room: 1 << 16,
        }
    }

    /// Drains, late words, busy polls, errors and flickers, each in some of the runs.
    pub fn drawn(rng: &mut Rng) -> Self {
        Knobs {
            waiting: if rng.chance(30) { rng.index(6) } else { 0 },
            pace: rng.pick(&[100, 100, 90, 60, 30]),
            busy: (0, rng.pick(&[0, 0, 1, 3, 9])),
            fault: rng.pick(&[0, 0, 0, 20, 100]),
            faulty: None,
            flicker: rng.pick(&[0, 0, 10, 40]),
            late: 0,
            config: if rng.chance(80) { IDLE_CONFIG } else { rng.word() },
            status: if rng.flag() { 0 } else { rng.byte() & !(BUSY | ERASE_ERROR | PROGRAM_ERROR) },
            config_register: rng.byte(),
            ids: drawn_ids(rng),
            reads: 1 << 17,
            room: 1 << 16,
        }
    }

    /// The same device for a long call.
    pub fn lasting(self) -> Self {
        Knobs { reads: usize::MAX, room: 1 << 28, ..self }
    }
}

/// Codes that the Rust lists and others.
fn drawn_ids(rng: &mut Rng) -> [u8; 8] {
    let mut ids = [0; 8];
    ids.fill_with(|| rng.byte());
    for (place, codes) in [(1, [0x20, 0x02]), (2, [0x18, 0x19]), (4, [0x00, 0x01])] {
        if rng.chance(70) {
            ids[place] = rng.pick(&codes);
        }
    }
    ids
}

/// What a busy device works on.
#[derive(Clone, Debug)]
enum Work {
    Program { addr: u32, data: Vec<u8> },
    Erase { addr: u32 },
}

/// The array: at the start each byte follows from its address, so that nothing has to be stored.
#[derive(Clone, Debug, Default)]
struct Array {
    /// The pages that are no longer as at the start.
    pages: BTreeMap<u32, [u8; 256]>,
    erased_sectors: Vec<u32>,
}

impl Array {
    fn byte(&self, addr: u32) -> u8 {
        let addr = addr & 0x00FF_FFFF;
        match self.pages.get(&(addr >> 8)) {
            Some(bytes) => bytes[addr as usize % 256],
            None => self.untouched(addr),
        }
    }

    fn untouched(&self, addr: u32) -> u8 {
        if self.erased_sectors.contains(&(addr >> 16)) { 0xFF } else { (addr.wrapping_mul(0x9E37_79B1) >> 24) as u8 }
    }

    /// Old AND new, within the page.
    fn program(&mut self, addr: u32, data: &[u8]) {
        let number = (addr & 0x00FF_FFFF) >> 8;
        let untouched = std::array::from_fn(|i| self.untouched(number << 8 | i as u32));
        let bytes = self.pages.entry(number).or_insert(untouched);
        for (i, byte) in data.iter().enumerate() {
            bytes[(addr as usize + i) % 256] &= byte;
        }
    }

    fn erase(&mut self, addr: u32) {
        let sector = (addr & 0x00FF_FFFF) >> 16;
        self.pages.retain(|number, _| number / SECTOR_PAGES != sector);
        self.erased_sectors.push(sector);
    }
}

/// The flash chip.
#[derive(Clone, Debug)]
struct Flash {
    array: Array,
    status: u8,
    config_register: u8,
    ids: [u8; 8],
    latch: bool,
    work: Option<Work>,
    /// Status reads that still show busy, while there is work.
    busy_reads: u32,
    /// Error bits at the work's end.
    fault: u8,
    /// Programs and erases that were begun.
    works: u32,
    /// Bytes that came since chip select fell.
    command: Vec<u8>,
}

impl Flash {
    /// Takes a byte and gives the one that is shifted out beside it.
    fn shift(&mut self, byte: u8, rng: &mut Rng) -> u8 {
        let at = self.command.len();
        self.command.push(byte);
        let idle = self.work.is_none();
        match self.command[0] {
            0x05 if at > 0 => self.show_status(),
            0x35 if at > 0 && idle => self.config_register,
            0x9F if (1..=8).contains(&at) && idle => self.ids[at - 1],
            0x03 if at > 3 && idle => self.array.byte(self.addr().wrapping_add(at as u32 - 4)),
            0x0B if at > 4 && idle => self.array.byte(self.addr().wrapping_add(at as u32 - 5)),
            _ => rng.byte(),
        }
    }

    /// The command's address, high byte first.
    fn addr(&self) -> u32 {
        u32::from_be_bytes([0, self.command[1], self.command[2], self.command[3]])
    }

    fn show_status(&mut self) -> u8 {
        if self.work.is_some() && self.busy_reads == 0 {
            self.end_work();
        }
        self.busy_reads = self.busy_reads.saturating_sub(1);
        let busy = if self.work.is_some() { BUSY } else { 0 };
        self.status | busy | if self.latch { LATCH } else { 0 }
    }

    /// Work that failed leaves the device busy until the status is cleared, as the datasheet is recalled: the error bit and
    /// bit 0 are then set together.
    fn end_work(&mut self) {
        if self.fault != 0 {
            self.status |= self.fault;
            return;
        }
        match self.work.take() {
            Some(Work::Program { addr, data }) => self.array.program(addr, &data),
            Some(Work::Erase { addr }) => self.array.erase(addr),
            None => {}
        }
    }

    /// Chip select rises: the command takes effect.
    fn take_effect(&mut self, knobs: &Knobs, rng: &mut Rng) {
        let command = std::mem::take(&mut self.command);
        let Some(&first) = command.first() else {
            return;
        };
        if first == 0x30 {
            self.clear_status();
        }
        if self.work.is_some() {
            return;
        }
        match first {
            0x06 => self.latch = true,
            0x04 => self.latch = false,
            0x01 if self.latch => self.write_registers(&command[1..]),
            0x02 if self.latch && command.len() > 4 => {
                let data = command[4..].to_vec();
                self.begin(Work::Program { addr: address(&command), data }, knobs, rng);
            }
            0xD8 if self.latch && command.len() >= 4 => {
                self.begin(Work::Erase { addr: address(&command) }, knobs, rng);
            }
            _ => {}
        }
    }

    fn clear_status(&mut self) {
        if self.status & (ERASE_ERROR | PROGRAM_ERROR) != 0 {
            self.work = None;
        }
        self.status &= !(ERASE_ERROR | PROGRAM_ERROR);
    }

    fn write_registers(&mut self, bytes: &[u8]) {
        self.latch = false;
        if let Some(status) = bytes.first() {
            self.status = status & !(BUSY | LATCH | ERASE_ERROR | PROGRAM_ERROR);
        }
        if let Some(config) = bytes.get(1) {
            self.config_register = *config;
        }
    }

    /// The fault is now and then the other command's bit, or the bit without busy: which of them ends a poll is for the driver
    /// to know.
    fn begin(&mut self, work: Work, knobs: &Knobs, rng: &mut Rng) {
        let own = match work {
            Work::Program { .. } => PROGRAM_ERROR,
            Work::Erase { .. } => ERASE_ERROR,
        };
        self.latch = false;
        self.busy_reads = rng.between(knobs.busy.0, knobs.busy.1);
        self.fault = 0;
        self.works += 1;
        if knobs.faulty == Some(self.works - 1) || rng.chance(knobs.fault) {
            self.fault = own;
        } else if rng.chance(knobs.fault) {
            self.status |= own ^ (PROGRAM_ERROR | ERASE_ERROR);
        }
        self.work = Some(work);
        if self.fault != 0 && rng.chance(30) {
            self.status |= self.fault;
            self.work = None;
        }
    }
}

fn address(command: &[u8]) -> u32 {
    u32::from_be_bytes([0, command[1], command[2], command[3]])
}

/// A word that waits to go out, and how many of its bytes do.
#[derive(Clone, Copy, Debug)]
struct TxWord {
    word: u32,
    width: usize,
}

#[derive(Clone, Debug)]
pub struct Device {
    knobs: Knobs,
    rng: Rng,
    flash: Flash,
    config: u32,
    tx: VecDeque<TxWord>,
    /// Words of `tx` that a start released.
    released: usize,
    rx: VecDeque<u32>,
    /// Status reads that will hide a waiting word.
    late: u32,
    reads: usize,
}

impl Device {
    pub fn new(knobs: Knobs, mut rng: Rng) -> Self {
        let flash = Flash {
            array: Array::default(),
            status: knobs.status,
            config_register: knobs.config_register,
            ids: knobs.ids,
            latch: false,
            work: None,
            busy_reads: 0,
            fault: 0,
            works: 0,
            command: Vec::new(),
        };
        Device {
            rx: (0..knobs.waiting).map(|_| rng.word()).collect(),
            tx: VecDeque::new(),
            released: 0,
            config: knobs.config,
            late: knobs.late,
            reads: 0,
            flash,
            rng,
            knobs,
        }
    }

    /// Between accesses: released words go out at the device's pace.
    fn pass_time(&mut self) {
        while self.released > 0 && self.rng.chance(self.knobs.pace) {
            self.send_word();
        }
    }

    /// A word goes out, and one comes in for it. The bytes of a short word arrive at the top of the RX word.
    fn send_word(&mut self) {
        let Some(TxWord { word, width }) = self.tx.pop_front() else {
            return;
        };
        self.released -= 1;
        let mut received = self.rng.word().to_le_bytes();
        for place in 0..width {
            let byte = word.to_le_bytes()[place];
            received[4 - width + place] = self.flash.shift(byte, &mut self.rng);
        }
        self.rx.push_back(u32::from_le_bytes(received));
    }

    fn write_config(&mut self, value: u32) {
        let rises = value & CHIP_SELECT != 0 && self.config & CHIP_SELECT == 0;
        self.config = value;
        if value & MANUAL_START != 0 {
            self.released = self.tx.len();
        }
        if rises {
            self.raise_chip_select();
        }
    }

    /// The words that were released are out before chip select rises: a driver that did not wait for all of them leaves their RX words
    /// to the next opening, as the published `program` does with its last one.
    fn raise_chip_select(&mut self) {
        while self.released > 0 {
            self.send_word();
        }
        self.tx.clear();
        self.flash.take_effect(&self.knobs, &mut self.rng);
    }

    fn interrupt_status(&mut self) -> u32 {
        let late = !self.rx.is_empty() && self.late > 0;
        self.late -= u32::from(late);
        let waits = !self.rx.is_empty() && !late && !self.rng.chance(self.knobs.flicker);
        let other = self.rng.word() & !RX_WAITS;
        other | if waits { RX_WAITS } else { 0 }
    }
}

impl Source for Device {
    fn read(&mut self, offset: u32) -> Option<u32> {
        if self.reads == self.knobs.reads {
            return None;
        }
        self.reads += 1;
        self.pass_time();
        Some(match offset {
            CONFIG => self.config & !MANUAL_START,
            INTERRUPT_STATUS => self.interrupt_status(),
            RX_DATA => self.rx.pop_front().unwrap_or_else(|| self.rng.word()),
            _ => self.rng.word(),
        })
    }

    fn write(&mut self, offset: u32, value: u32) {
        self.pass_time();
        let width = match offset {
            CONFIG => return self.write_config(value),
            TX_DATA_FOUR => 4,
            TX_DATA_THREE => 3,
            TX_DATA_TWO => 2,
            TX_DATA_ONE => 1,
            _ => return,
        };
        self.tx.push_back(TxWord { word: value, width });
    }
}

#[cfg(test)]
mod tests {
    use super::*;
    use call::Call;

    fn done(call: &Call, source: Box<dyn Source>, buffer: &mut [u8]) -> Box<dyn Source> {
        let ran = driver::run(call, source, usize::MAX, buffer);
        assert_eq!(ran.ended.answer, 0, "{call:?}");
        ran.source
    }

    fn read(source: Box<dyn Source>, addr: u32, bytes: &mut [u8]) -> Box<dyn Source> {
        done(&Call::ReadFastRead { addr, dummy_byte: true, length: bytes.len() }, source, bytes)
    }

    /// Late and busy, but without what document 01's device does not do: errors, and hidden words, which an opening would not
    /// drain.
    fn device(seed: u64) -> Box<dyn Source> {
        let mut rng = Rng::new(seed);
        let knobs = Knobs { fault: 0, flicker: 0, config: IDLE_CONFIG, ..Knobs::drawn(&mut rng) };
        Box::new(Device::new(knobs, rng))
    }

    #[test]
    fn programmed_bytes_are_old_and_new() {
        for seed in 0..20 {
            let data = Rng::new(seed).bytes(300);
            let (mut before, mut after) = (vec![0; 400], vec![0; 400]);
            let source = read(device(seed), 0xFF00, &mut before);
            let source = done(&Call::WritePages { addr: 0xFF00, data: data.clone() }, source, &mut []);
            read(source, 0xFF00, &mut after);
            let expected = before.iter().zip(data.iter().chain(std::iter::repeat(&0xFF))).map(|(old, new)| old & new);
            assert!(after.iter().copied().eq(expected));
        }
    }

    /// Ends a run where chip select rises before every word is out and its reply taken.
    struct Watched(Device);

    impl Source for Watched {
        fn read(&mut self, offset: u32) -> Option<u32> {
            self.0.read(offset)
        }

        fn write(&mut self, offset: u32, value: u32) {
            let rises = offset == CONFIG && value & CHIP_SELECT != 0 && self.0.config & CHIP_SELECT == 0;
            assert!(!rises || self.0.released == 0 && self.0.rx.is_empty(), "a word is left");
            self.0.write(offset, value);
        }
    }

    #[test]
    fn no_word_is_left_when_chip_select_rises() {
        for words in 0..=60 {
            let mut rng = Rng::new(words as u64);
            let knobs = Knobs { pace: 30, fault: 0, flicker: 0, config: IDLE_CONFIG, ..Knobs::drawn(&mut rng) };
            let source = Box::new(Watched(Device::new(knobs, rng.fork())));
            let source = done(&Call::Program { addr: 0, data: rng.bytes(4 * words) }, source, &mut []);
            done(&Call::WritePages { addr: 0xFF00, data: rng.bytes(4 * words + 128) }, source, &mut []);
        }
    }

    #[test]
    fn an_erased_sector_is_ff_and_its_neighbours_stay() {
        for seed in 0..20 {
            let (mut before, mut after) = (vec![0; 32], vec![0; 32]);
            let source = read(device(seed), 0x1_FFF0, &mut before);
            let source = done(&Call::EraseSector { addr: 0x2_0000 }, source, &mut []);
            read(source, 0x1_FFF0, &mut after);
            assert_eq!(after[..16], before[..16]);
            assert_eq!(after[16..], [0xFF; 16]);
        }
    }

    #[test]
    fn an_error_ends_in_its_refusal_and_is_cleared() {
        let knobs = Knobs { fault: 100, busy: (0, 2), ..Knobs::plain() };
        let ran = driver::run(
            &Call::Program { addr: 0, data: vec![0; 8] },
            Box::new(Device::new(knobs, Rng::new(5))),
            usize::MAX,
            &mut [],
        );
        assert_eq!(ran.ended.answer, 22);
        let status = driver::run(&Call::ReadStatusRegister1, ran.source, usize::MAX, &mut []);
        assert_eq!(status.ended.values, [0]);
    }
}
