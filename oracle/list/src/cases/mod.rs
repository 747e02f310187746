//! The cases, and the ways in which they are made.

mod array;
mod clocks;
mod registers;
mod sectors;

use crate::answer::{Case, LOG_WORDS};
use crate::device::{Device, Manner, Noise};
use crate::rng::Rng;
use crate::words::{EMPTY, READY};
use call::Call;
use driver::Source;

/// Words of log and replies that a whole run is lent beside those that it uses, case by case.
const SPARE: [(usize, usize); 4] = [(0, 0), (1, 2), (3, 0), (0, 1)];

/// All cases, the same each time.
pub fn all() -> Vec<Case> {
    let mut list = List { cases: Vec::new() };
    clocks::add(&mut list);
    registers::add(&mut list);
    array::add(&mut list);
    sectors::add(&mut list);
    list.cases
}

pub struct List {
    cases: Vec<Case>,
}

/// A run on a source: what its reads gave, and the accesses, of which a read is true.
struct Live {
    replies: Vec<u32>,
    reads: Vec<bool>,
}

impl Live {
    fn of(log: &[u32]) -> Self {
        let accesses = log.chunks_exact(2);
        let reads: Vec<bool> = accesses.clone().map(|access| access[0] >= 0x100).collect();
        let replies = accesses.zip(&reads).filter(|(_, read)| **read).map(|(access, _)| access[1]).collect();
        Live { replies, reads }
    }

    fn used(&self) -> usize {
        2 * self.reads.len()
    }

    /// The replies of as many accesses as a log of so many words has room for, and one that is left.
    fn within(&self, room: usize) -> &[u32] {
        let made = &self.reads[..self.reads.len().min(room / 2)];
        let reads = made.iter().filter(|read| **read).count();
        &self.replies[..self.replies.len().min(reads + 1)]
    }
}

impl List {
    /// A generator of its own for the next case.
    fn rng(&self) -> Rng {
        let mut rng = Rng::new((self.cases.len() as u64 + 1).wrapping_mul(0x9E37_79B9_7F4A_7C15));
        rng.word();
        rng
    }

    fn push(&mut self, call: &Call, replies: &[u32], room: usize) {
        self.cases.push(Case { call: call.clone(), replies: replies.to_vec(), room });
    }

    fn live(&self, call: &Call, source: Box<dyn Source>) -> Live {
        let mut buffer = [0; crate::answer::BUFFER_BYTES];
        let ran = driver::run(call, source, LOG_WORDS, &mut buffer);
        assert!(ran.ended.answer != 24, "too long: {call:X?}");
        Live::of(&ran.log)
    }

    /// The front of a run that is longer than the log there is.
    fn front(&self, call: &Call, manner: &Manner) -> Live {
        let source = Device::new(manner.clone(), self.rng());
        Live::of(&driver::run(call, Box::new(source), LOG_WORDS, &mut []).log)
    }

    fn on_device(&self, call: &Call, manner: &Manner) -> Live {
        self.live(call, Box::new(Device::new(manner.clone(), self.rng())))
    }

    /// A call that makes no access.
    fn pure(&mut self, call: Call) {
        self.push(&call, &[], 0);
    }

    /// A whole run on a device, with as much as it needs or a little more.
    fn whole(&mut self, call: Call, manner: Manner) {
        let live = self.on_device(&call, &manner);
        let (words, replies) = SPARE[self.cases.len() % SPARE.len()];
        let more = [READY[0], EMPTY[0]];
        self.push(&call, &[&live.replies, &more[..replies]].concat(), live.used() + words);
    }

    /// A whole run; then its log cut at some place, and its replies.
    fn cut(&mut self, call: Call, manner: Manner) {
        self.whole(call.clone(), manner.clone());
        let live = self.on_device(&call, &manner);
        let room = self.rng().index(live.used());
        self.push(&call, live.within(room), room);
        if !live.replies.is_empty() {
            let given = self.rng().index(live.replies.len());
            self.push(&call, &live.replies[..given], live.used());
        }
    }

    /// The log cut at every place that is so far from the one before, from none to all, and the replies at every place.
    fn every_cut(&mut self, call: Call, manner: Manner, step: usize) {
        let live = self.on_device(&call, &manner);
        for room in (0..=live.used()).step_by(step) {
            self.push(&call, live.within(room), room);
        }
        for given in 0..live.replies.len() {
            self.push(&call, &live.replies[..given], live.used());
        }
    }

    /// Log and replies end at the same read.
    fn both_end(&mut self, call: Call, manner: Manner) {
        let live = self.on_device(&call, &manner);
        let reads = live.reads.iter().enumerate().filter(|(_, read)| **read);
        for (given, (place, _)) in reads.enumerate() {
            self.push(&call, &live.replies[..given], 2 * place + given % 2);
        }
    }

    /// A run on words at random, of which there are so many.
    fn noise(&mut self, call: Call, words: usize) {
        let live = self.live(&call, Box::new(Noise::new(self.rng(), words)));
        let room = if self.cases.len().is_multiple_of(3) { self.rng().index(live.used() + 3) } else { live.used() + 2 };
        self.push(&call, &live.replies, room);
    }
}
