//! A controller with its flash to run calls against, after document 01's "The flash, as defined here".

use std::collections::{BTreeMap, VecDeque};

/// How a call ended: its answer, used log words, used replies.
pub(crate) type Ended = (u32, usize, usize);

pub(crate) struct Device {
    pub(crate) config: u32,
    /// TX words that wait for a start, and those that it released, each as its bytes.
    pub(crate) waiting: Vec<Vec<u8>>,
    released: VecDeque<Vec<u8>>,
    /// The bytes out since chip select fell.
    out: Vec<u8>,
    received: VecDeque<u32>,
    latch: bool,
    /// Status reads that still show the work.
    at_work: u32,
    array: BTreeMap<u32, u8>,
    /// Accesses between two words that go out, and those left of them.
    gap: u32,
    pause: u32,
    /// Status reads that show a program or an erase.
    busy: u32,
    /// Looks at the status register that found no word, but for the one that ends a transfer's drain.
    pub(crate) looks: u64,
    /// Whether every third look of an open transfer finds none, although one waits: more than document 01's device does.
    pub(crate) hides: bool,
    open: bool,
    seen: u32,
}

impl Device {
    /// Chip select high, chip select and start the program's, nothing under way: FF everywhere.
    pub(crate) fn at_rest(gap: u32, busy: u32) -> Device {
        Device {
            config: 0x8008_C4C1,
            waiting: Vec::new(),
            released: VecDeque::new(),
            out: Vec::new(),
            received: VecDeque::new(),
            latch: false,
            at_work: 0,
            array: BTreeMap::new(),
            gap,
            pause: gap,
            busy,
            looks: 0,
            hides: false,
            open: false,
            seen: 0,
        }
    }

    pub(crate) fn byte(&self, at: u32) -> u8 {
        self.array.get(&at).copied().unwrap_or(0xFF)
    }

    /// Runs a call with room for so many accesses. A reply is asked for as the call comes to it: a zero stands in its place
    /// first, and shows by the log which register is read.
    pub(crate) fn run(&mut self, room: usize, call: impl Fn(&[u32], &mut [u32]) -> Ended) -> Ended {
        let mut replies = Vec::new();
        let mut made = 0;
        loop {
            replies.push(0);
            let mut log = vec![0; room * 2];
            let ended = call(&replies, &mut log);
            let accesses: Vec<(u32, u32)> = log[..ended.1].chunks(2).map(|a| (a[0], a[1])).collect();
            let asked = accesses.iter().enumerate().filter(|(_, a)| a.0 >= 0x100).nth(replies.len() - 1);
            let until = asked.map_or(accesses.len(), |(at, _)| at);
            for (offset, value) in &accesses[made..until] {
                self.write(*offset, *value);
            }
            let Some((at, (offset, _))) = asked else {
                return ended;
            };
            *replies.last_mut().expect("the zero") = self.read(offset - 0x100);
            made = at + 1;
        }
    }

    fn read(&mut self, offset: u32) -> u32 {
        self.goes_on();
        match offset {
            0x00 => self.config,
            0x04 if self.shows_a_word() => 0x10,
            0x04 => {
                self.looks += 1;
                0
            }
            0x20 => self.received.pop_front().unwrap_or(0),
            _ => 0,
        }
    }

    fn shows_a_word(&mut self) -> bool {
        self.seen += u32::from(self.hides && self.open);
        !self.received.is_empty() && self.seen % 3 != 2
    }

    fn write(&mut self, offset: u32, value: u32) {
        self.goes_on();
        let bytes = value.to_le_bytes();
        match offset {
            0x00 => self.configure(value),
            // A transfer opens, whose drain has looked once in vain, or closes.
            0x14 => {
                self.looks -= u64::from(value);
                self.open = value == 1;
                self.seen = 0;
            }
            0x1C => self.waiting.push(bytes.to_vec()),
            0x80 => self.waiting.push(bytes[..1].to_vec()),
            0x84 => self.waiting.push(bytes[..2].to_vec()),
            0x88 => self.waiting.push(bytes[..3].to_vec()),
            _ => {}
        }
    }

    /// Where chip select rises the command takes effect as far as it is out; words that are not wait for another start.
    fn configure(&mut self, value: u32) {
        let (was_high, is_high) = (self.config & 0x400 != 0, value & 0x400 != 0);
        if is_high && !was_high {
            self.waiting.splice(..0, self.released.drain(..));
            self.obey();
        }
        if is_high != was_high {
            self.out.clear();
        }
        if value & 0x1_0000 != 0 {
            self.released.extend(self.waiting.drain(..));
        }
        self.config = value & !0x1_0000;
    }

    fn goes_on(&mut self) {
        if self.released.is_empty() {
            return;
        }
        if self.pause > 0 {
            self.pause -= 1;
            return;
        }
        self.pause = self.gap;
        self.word_out();
    }

    fn word_out(&mut self) {
        self.out.extend(self.released.pop_front().expect("a word"));
        let shown = self.out[0] == 0x05 && self.out.len() > 1 && self.at_work > 0;
        self.at_work -= u32::from(shown);
        self.received.push_back(u32::from(shown) << 24);
    }

    fn obey(&mut self) {
        if self.at_work > 0 {
            return;
        }
        match self.out[..] {
            [0x06, ..] => self.latch = true,
            [0x04, ..] => self.latch = false,
            [0x02, a, b, c, _, ..] if self.latch => self.program(u32::from_be_bytes([0, a, b, c])),
            [0xD8, _, _, _, ..] if self.latch => self.works(),
            _ => {}
        }
    }

    fn program(&mut self, at: u32) {
        for (i, byte) in (0..).zip(self.out[4..].to_vec()) {
            let place = at / 256 * 256 + (at + i) % 256;
            self.array.insert(place, self.byte(place) & byte);
        }
        self.works();
    }

    fn works(&mut self) {
        self.latch = false;
        self.at_work = self.busy;
    }
}
