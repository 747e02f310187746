//! What the tests share.
#![allow(dead_code)]

use driver::{Ran, Replies, Source};
use recorder::READ;

use call::Call;

/// The replies of document 01's write enable.
pub const WRITE_ENABLE_REPLIES: [u32; 6] = [0, 0x8008_C4C1, 0x8008_C0C1, 0x10, 0xFF00_0000, 0x8008_C0C1];

/// A controller that is never late: one reply for each word sent, all of them `reply`.
pub struct Prompt {
    pub reply: u32,
    config: u32,
    sent: usize,
    waiting: usize,
}

impl Prompt {
    pub fn new(reply: u32) -> Self {
        Self { reply, config: 0x8008_C4C1, sent: 0, waiting: 0 }
    }
}

impl Source for Prompt {
    fn read(&mut self, offset: u32) -> Option<u32> {
        Some(match offset {
            0x00 => self.config,
            0x04 => u32::from(self.waiting > 0) << 4,
            0x20 => {
                self.waiting -= 1;
                self.reply
            }
            _ => panic!("{offset:02X} is not read by the driver"),
        })
    }

    fn write(&mut self, offset: u32, value: u32) {
        match offset {
            0x00 => {
                self.config = value & !0x1_0000;
                if value != self.config {
                    self.waiting += std::mem::take(&mut self.sent);
                }
            }
            0x1C | 0x80 | 0x84 | 0x88 => self.sent += 1,
            _ => {}
        }
    }
}

/// Runs a call on a prompt controller that replies with zeros, with room enough.
pub fn run(call: &Call) -> Ran {
    run_into(call, &mut [])
}

pub fn run_into(call: &Call, buffer: &mut [u8]) -> Ran {
    driver::run(call, Box::new(Prompt::new(0)), usize::MAX, buffer)
}

/// Runs a call on recorded replies.
pub fn replay(call: &Call, replies: &[u32], room: usize) -> Ran {
    driver::run(call, Box::new(Replies::new(replies)), room, &mut [])
}

/// The answer of a call. A refusal of the input makes no access, but for 4 and 5 of `write_pages`.
pub fn answer(call: &Call) -> u32 {
    let ran = run(call);
    let pages = matches!(call, Call::WritePages { .. });
    if matches!(ran.ended.answer, 1..=5) && !pages {
        assert_eq!(ran.log, []);
    }
    assert_eq!(ran.ended.used, ran.log.len());
    ran.ended.answer
}

/// The words written to a register.
pub fn written(log: &[u32], offset: u32) -> Vec<u32> {
    log.chunks(2).filter(|access| access[0] == offset).map(|access| access[1]).collect()
}

/// The log in document 01's printed form.
pub fn lines(log: &[u32]) -> Vec<String> {
    let line = |access: &[u32]| {
        let (letter, offset) = if access[0] < READ { ('W', access[0]) } else { ('R', access[0] - READ) };
        format!("{letter} {offset:02X} {:08X}", access[1])
    };
    log.chunks(2).map(line).collect()
}
