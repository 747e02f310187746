//! A simulated controller and its flash, for tests: document 01's "The flash, as defined here", behind registers.
//! What the document leaves free, and what it rules out but a broken board may do, is chosen by [Settings].
#![forbid(unsafe_code)]

mod array;
mod flash;
mod settings;

use flash::Flash;
pub use settings::{Failure, IDLE_CONFIG, Mode, Settings};
use std::collections::VecDeque;
use std::mem;
use std::ops::Range;

const CONFIG: u8 = 0x00;
const INTERRUPT_STATUS: u8 = 0x04;
const TX_DATA_00: u8 = 0x1C;
const RX_DATA: u8 = 0x20;
const TX_DATA_01: u8 = 0x80;
const TX_DATA_10: u8 = 0x84;
const TX_DATA_11: u8 = 0x88;

const RX_WAITS: u32 = 1 << 4;
const CHIP_SELECT_HIGH: u32 = 1 << 10;
const MANUAL_START: u32 = 1 << 16;

/// A TX word: how many of its bytes go out, the low one first.
struct TxWord {
    word: u32,
    bytes: usize,
}

pub struct Model {
    settings: Settings,
    flash: Flash,
    config: u32,
    /// Words that wait for a start.
    waiting: VecDeque<TxWord>,
    /// Words that a start released and that are not out yet.
    released: VecDeque<TxWord>,
    rx: VecDeque<u32>,
    /// Looks that will still find nothing.
    pause: u32,
    accesses: u64,
    cut: Option<u64>,
}

impl Default for Model {
    fn default() -> Self {
        Self::new(Settings::default())
    }
}

impl Model {
    pub fn new(settings: Settings) -> Model {
        Model {
            flash: Flash::new(&settings),
            config: settings.config,
            waiting: VecDeque::new(),
            released: VecDeque::new(),
            rx: settings.waiting.iter().copied().collect(),
            pause: settings.looks,
            accesses: 0,
            cut: None,
            settings,
        }
    }

    /// A register read.
    pub fn read(&mut self, offset: u8) -> u32 {
        if !self.has_power() {
            return 0;
        }
        match offset {
            CONFIG => self.config,
            INTERRUPT_STATUS => self.look(),
            RX_DATA => self.rx.pop_front().unwrap_or(0),
            _ => 0,
        }
    }

    /// A register write.
    pub fn write(&mut self, offset: u8, value: u32) {
        if !self.has_power() {
            return;
        }
        match offset {
            CONFIG => self.configure(value),
            TX_DATA_00 => self.waiting.push_back(TxWord { word: value, bytes: 4 }),
            TX_DATA_01 => self.waiting.push_back(TxWord { word: value, bytes: 1 }),
            TX_DATA_10 => self.waiting.push_back(TxWord { word: value, bytes: 2 }),
            TX_DATA_11 => self.waiting.push_back(TxWord { word: value, bytes: 3 }),
            _ => {}
        }
    }

    /// The accesses so far, with those after a cut.
    pub fn accesses(&self) -> u64 {
        self.accesses
    }

    /// The power fails after so many accesses, counted from the start: later writes do nothing, later reads give 0.
    pub fn cut_after(&mut self, accesses: u64) {
        self.cut = Some(accesses);
    }

    /// A byte of the array. Where work is under way it is in doubt, and this is the old one.
    pub fn byte(&self, addr: u32) -> u8 {
        self.flash.array.byte(addr)
    }

    /// Puts bytes into the array, as they are.
    pub fn load(&mut self, addr: u32, bytes: &[u8]) {
        self.flash.array.load(addr, bytes);
    }

    /// The addresses whose bytes are in doubt: those of a program or an erase under way.
    pub fn in_doubt(&self) -> Option<Range<u32>> {
        self.flash.in_doubt()
    }

    /// Status register 1 as a status read would show it.
    pub fn status(&self) -> u8 {
        self.flash.status()
    }

    pub fn config_register(&self) -> u8 {
        self.flash.config_register
    }

    /// Whether chip select is high and no TX word waits: what a call starts from.
    pub fn is_at_rest(&self) -> bool {
        self.config & CHIP_SELECT_HIGH != 0 && self.waiting.is_empty() && self.released.is_empty()
    }

    /// Counts an access, and says whether it has an effect.
    fn has_power(&mut self) -> bool {
        self.accesses += 1;
        self.cut.is_none_or(|cut| self.accesses <= cut)
    }

    /// The interrupt status. A released word goes out once so many looks found nothing.
    fn look(&mut self) -> u32 {
        match self.settings.mode {
            Mode::Stuck => return 0,
            Mode::AlwaysReady => return RX_WAITS,
            Mode::Sound | Mode::BusyForEver => {}
        }
        if self.rx.is_empty() && !self.released.is_empty() {
            if self.pause > 0 {
                self.pause -= 1;
                return 0;
            }
            self.pause = self.settings.looks;
            self.word_out();
        }
        if self.rx.is_empty() { 0 } else { RX_WAITS }
    }

    /// Where chip select rises the command takes effect as far as it is out; words that are not wait for another start.
    fn configure(&mut self, value: u32) {
        let (was_high, is_high) = (self.config & CHIP_SELECT_HIGH != 0, value & CHIP_SELECT_HIGH != 0);
        if is_high && !was_high {
            self.released.append(&mut self.waiting);
            mem::swap(&mut self.released, &mut self.waiting);
            self.flash.take_effect(&self.settings);
        }
        if value & MANUAL_START != 0 {
            self.released.append(&mut self.waiting);
        }
        self.config = value & !MANUAL_START;
    }

    /// The next released word goes out. Bytes come in from the top: a short word's last one is the reply's top byte.
    fn word_out(&mut self) {
        let Some(tx) = self.released.pop_front() else {
            return;
        };
        let mut reply = 0;
        for byte in &tx.word.to_le_bytes()[..tx.bytes] {
            reply = reply >> 8 | u32::from(self.flash.shift(*byte)) << 24;
        }
        self.rx.push_back(reply);
    }
}

impl qspi_flash::Bus for Model {
    fn read(&mut self, offset: u8) -> u32 {
        Model::read(self, offset)
    }

    fn write(&mut self, offset: u8, value: u32) {
        Model::write(self, offset, value);
    }
}
