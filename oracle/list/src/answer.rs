//! What the Rust answers to a case, and the line that says so.

use crate::finished::{programmed, sectors};
use crate::kind;
use call::{Call, Ended};
use driver::Replies;
use std::fmt::Write;
use std::iter;

/// The memory that the replaying program has.
pub const LOG_WORDS: usize = 4096;
pub const BUFFER_BYTES: usize = 768;

const UNTOUCHED: u32 = 0xA5A5_5A5A;
const UNTOUCHED_BYTE: u8 = 0x5A;

/// The digest's modulus, a prime above 2^32, and its factor.
const PRIME: u64 = (1 << 40) - 87;
const FACTOR: u64 = 0x10_0003;

/// A call, its replies and the words of log that it is lent.
pub struct Case {
    pub call: Call,
    pub replies: Vec<u32>,
    pub room: usize,
}

/// What the Rust left of a case.
pub struct Answered {
    pub ended: Ended,
    /// The used words.
    pub log: Vec<u32>,
    buffer: Vec<u8>,
}

/// Runs a case on the Rust.
pub fn answered(case: &Case) -> Answered {
    let mut buffer = vec![UNTOUCHED_BYTE; BUFFER_BYTES];
    let source = Replies::new(case.replies.clone());
    let ran = driver::run(&case.call, Box::new(source), case.room, &mut buffer);
    assert!(ran.panic.is_none(), "out of the domain of equality: {:X?}: {:?}", case.call, ran.panic);
    assert!(driver::ruled(&case.call, &ran.ended).is_none(), "past quotient 32: {:X?}", case.call);
    let mut ended = ran.ended;
    match case.call {
        Call::WritePages { .. } => ended.programmed = programmed(&ran.log),
        Call::EraseSectors { .. } => {
            ended.finished = sectors(&ran.log);
            ended.values = vec![ended.place];
        }
        _ => {}
    }
    Answered { ended, log: ran.log, buffer }
}

impl Answered {
    /// The line of a case by its number and its kind's. A call that is not done has zeros for values.
    pub fn line(&self, number: usize, kind: usize) -> String {
        let Ended { answer, values, used, replies, programmed, finished, .. } = &self.ended;
        let untouched = iter::repeat_n(&UNTOUCHED, LOG_WORDS - self.log.len());
        let log = digest(self.log.iter().chain(untouched).map(|word| u64::from(*word)));
        let buffer = digest(self.buffer.iter().map(|byte| u64::from(*byte)));
        let count = programmed + finished;
        let mut line = format!("{number} {:<14} {answer} {used} {replies} {count}", kind::NAMES[kind]);
        write!(line, " {log:010x} {buffer:010x}").unwrap();
        let most = kind::values(kind);
        assert!(values.len() == if *answer == 0 || kind::names_a_place(kind) { most } else { 0 });
        for place in 0..most {
            write!(line, " {:02x}", values.get(place).unwrap_or(&0)).unwrap();
        }
        line.push('\n');
        line
    }
}

fn digest(numbers: impl Iterator<Item = u64>) -> u64 {
    numbers.fold(1, |digest, number| (digest * FACTOR + number) % PRIME)
}
