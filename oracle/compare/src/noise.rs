//! Random replies: they know nothing of a flash, and so lead into branches that a device would not take.

use crate::rng::Rng;
use recorder::Source;

const INTERRUPT_STATUS: u32 = 0x04;
const RX_DATA: u32 = 0x20;
const RX_WAITS: u32 = 1 << 4;

/// Top bytes of a reply that decide a status poll: idle, busy, either error, both with busy.
const STATUS_BYTES: [u8; 10] = [0x00, 0x00, 0x01, 0x20, 0x21, 0x40, 0x41, 0x60, 0x61, 0x02];

#[derive(Debug)]
pub struct Noise {
    rng: Rng,
    /// Chance in percent that a word is said to wait.
    ready: u32,
    left: usize,
}

impl Noise {
    /// The chance stays below 100, or an opening would drain for ever.
    pub fn new(mut rng: Rng) -> Self {
        let ready = rng.pick(&[30, 50, 70, 90]);
        let left = rng.pick(&[3, 20, 100, 400, 2000]);
        Noise { left: rng.index(left), ready, rng }
    }
}

impl Source for Noise {
    fn read(&mut self, offset: u32) -> Option<u32> {
        self.left = self.left.checked_sub(1)?;
        let word = self.rng.word();
        Some(match offset {
            INTERRUPT_STATUS => {
                if self.rng.chance(self.ready) {
                    word | RX_WAITS
                } else {
                    word & !RX_WAITS
                }
            }
            RX_DATA if self.rng.chance(70) => word & 0x00FF_FFFF | u32::from(self.rng.pick(&STATUS_BYTES)) << 24,
            _ => word,
        })
    }
}
