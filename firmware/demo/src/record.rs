//! What is known of a power cut after it: some words of RAM that no reset and no loader touches.
use core::sync::atomic::AtomicU32;
use core::sync::atomic::Ordering::Relaxed;

const MAGIC: u32 = 0x4355_5453;
const WORDS: usize = 8;

// SAFETY: link.ld keeps a page free for it, outside all sections. Any bits make a word, and nobody else writes there.
unsafe extern "C" {
    safe static RECORD: [AtomicU32; WORDS];
}

/// A cut of the save, and the tally up to it.
#[derive(Clone, Copy)]
pub struct Record {
    /// The accesses that were made.
    pub accesses: u32,
    /// The bytes that the driver's answer counted then.
    pub programmed: u32,
    /// The chunks of which a data word was handed to the controller.
    pub begun: u32,
    /// Whether the save was over: there is no later cut.
    pub over: bool,
    /// The cuts that left a wrong array.
    pub wrong: u32,
    /// The cuts that left a chunk partly or wholly programmed that was not counted.
    pub in_doubt: u32,
}

impl Record {
    /// The cut before the first access.
    pub const FIRST: Record = Record { accesses: 0, programmed: 0, begun: 0, over: false, wrong: 0, in_doubt: 0 };

    fn words(self) -> [u32; WORDS] {
        let Record { accesses, programmed, begun, over, wrong, in_doubt } = self;
        let check = check(&[accesses, programmed, begun, over.into(), wrong, in_doubt]);
        [MAGIC, accesses, programmed, begun, over.into(), wrong, in_doubt, check]
    }

    /// Leaves the record for the time after the reset.
    pub fn leave(self) {
        for (place, word) in RECORD.iter().zip(self.words()) {
            place.store(word, Relaxed);
        }
    }

    /// Takes the record that was left, if there is a whole one: none after power-on.
    pub fn take() -> Option<Record> {
        let found: [u32; WORDS] = core::array::from_fn(|at| RECORD[at].load(Relaxed));
        RECORD[0].store(0, Relaxed);
        let [_, accesses, programmed, begun, over, wrong, in_doubt, _] = found;
        let record = Record { accesses, programmed, begun, over: over == 1, wrong, in_doubt };
        (record.words() == found).then_some(record)
    }
}

fn check(words: &[u32]) -> u32 {
    words.iter().fold(!MAGIC, |sum, word| sum.rotate_left(5) ^ word)
}
