//! What answers the Rust's reads while a case is made: a controller with a flash behind it, or noise.

use crate::rng::Rng;
use crate::words::{self, EMPTY, IDLE_CONFIG, READY, STATUSES};
use driver::Source;
use std::collections::VecDeque;

const CONFIG: u32 = 0x00;
const INTERRUPT_STATUS: u32 = 0x04;
const ENABLE: u32 = 0x14;
const TX_DATA: [u32; 4] = [0x1C, 0x80, 0x84, 0x88];
const RX_DATA: u32 = 0x20;

const START: u32 = 1 << 16;

const READ_STATUS: u8 = 0x05;
const READ_CONFIG: u8 = 0x35;
const READ_ID: u8 = 0x9F;

/// What a device is like.
#[derive(Clone)]
pub struct Manner {
    pub config: u32,
    /// RX words that wait at the start.
    pub waiting: usize,
    /// Chance in percent that a status read inside a transfer hides the waiting word.
    pub hides: usize,
    /// The status register's byte, read by read; the last one stays.
    pub statuses: Vec<u8>,
    pub config_register: u8,
    pub ids: [u8; 8],
}

impl Manner {
    /// Prompt and without an error: one S25FL256S.
    pub fn plain() -> Self {
        Manner {
            config: IDLE_CONFIG,
            waiting: 0,
            hides: 0,
            statuses: vec![0],
            config_register: 0,
            ids: [0x01, 0x02, 0x19, 0x4D, 0x01, 0x80, b'R', b'0'],
        }
    }

    pub fn status(statuses: &[u8]) -> Self {
        Manner { statuses: statuses.to_vec(), ..Manner::plain() }
    }

    /// Words wait at the start and come late or are hidden again.
    pub fn slow(self) -> Self {
        Manner { waiting: 2, hides: 25, ..self }
    }
}

pub struct Device {
    manner: Manner,
    rng: Rng,
    data: Vec<u32>,
    config: u32,
    enabled: bool,
    /// Written in this transfer, and how many of them went out.
    tx: Vec<u32>,
    out: usize,
    rx: VecDeque<u32>,
    status_reads: usize,
}

impl Device {
    pub fn new(manner: Manner, mut rng: Rng) -> Self {
        let data = words::data();
        let rx = (0..manner.waiting).map(|_| rng.pick(&data)).collect();
        Device { config: manner.config, manner, rng, data, enabled: false, tx: Vec::new(), out: 0, rx, status_reads: 0 }
    }

    /// All words that wait go out, and one comes in for each.
    fn start(&mut self) {
        for place in self.out..self.tx.len() {
            let word = self.received(place);
            self.rx.push_back(word);
        }
        self.out = self.tx.len();
    }

    fn received(&mut self, place: usize) -> u32 {
        let ids = self.manner.ids;
        match (self.tx[0] as u8, place) {
            (READ_STATUS, 0) => {
                let statuses = &self.manner.statuses;
                let byte = statuses[self.status_reads.min(statuses.len() - 1)];
                self.status_reads += 1;
                words::register_reply(byte, &mut self.rng)
            }
            (READ_CONFIG, 0) => words::register_reply(self.manner.config_register, &mut self.rng),
            (READ_ID, 0) => u32::from_le_bytes([0xFF, ids[0], ids[1], ids[2]]),
            (READ_ID, 1) => u32::from_le_bytes([ids[3], ids[4], ids[5], ids[6]]),
            (READ_ID, 2) => u32::from_le_bytes([ids[7], 0xFF, 0xFF, 0xFF]),
            _ => self.rng.pick(&self.data),
        }
    }

    fn interrupt_status(&mut self) -> u32 {
        let hidden = self.enabled && self.rng.chance(self.manner.hides);
        if self.rx.is_empty() || hidden { self.rng.pick(&EMPTY) } else { self.rng.pick(&READY) }
    }
}

impl Source for Device {
    fn read(&mut self, offset: u32) -> Option<u32> {
        Some(match offset {
            CONFIG => self.config & !START,
            INTERRUPT_STATUS => self.interrupt_status(),
            RX_DATA => self.rx.pop_front().unwrap_or(0),
            _ => 0,
        })
    }

    fn write(&mut self, offset: u32, value: u32) {
        match offset {
            CONFIG => {
                self.config = value;
                if value & START != 0 {
                    self.start();
                }
            }
            ENABLE => {
                self.enabled = value == 1;
                self.tx.clear();
                self.out = 0;
            }
            _ if TX_DATA.contains(&offset) => self.tx.push(value),
            _ => {}
        }
    }
}

/// Words at random, which lead into branches that a device does not take.
pub struct Noise {
    rng: Rng,
    data: Vec<u32>,
    left: usize,
}

impl Noise {
    pub fn new(rng: Rng, left: usize) -> Self {
        Noise { rng, data: words::data(), left }
    }
}

impl Source for Noise {
    fn read(&mut self, offset: u32) -> Option<u32> {
        self.left = self.left.checked_sub(1)?;
        let rng = &mut self.rng;
        Some(match offset {
            INTERRUPT_STATUS if rng.chance(60) => rng.pick(&READY),
            INTERRUPT_STATUS => rng.pick(&EMPTY),
            RX_DATA if rng.chance(70) => {
                let byte = rng.pick(&STATUSES);
                words::register_reply(byte, rng)
            }
            _ => rng.pick(&self.data),
        })
    }
}
