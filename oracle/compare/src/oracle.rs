//! Runs a call on the published Rust, live on a source or again on the replies that a live run was given. What the papers have on its
//! answer is put there in one place.

use crate::observe::observe;
use call::{Call, Ended};
use recorder::Source;
use std::rc::Rc;

/// A run of the Rust.
#[derive(Debug)]
pub struct Ran {
    pub ended: Ended,
    pub log: Vec<u32>,
    /// U3's rule decided the baud rate divisor or 31, on the Rust's answer.
    pub ruled: bool,
}

/// The Rust panicked: the call was out of the domain, and the generator is at fault.
#[derive(Clone, Debug)]
pub struct Panicked(pub String);

/// The first `given` words of a list of replies.
#[derive(Debug)]
struct Given {
    list: Rc<[u32]>,
    at: usize,
    given: usize,
}

impl Source for Given {
    fn read(&mut self, _offset: u32) -> Option<u32> {
        if self.at == self.given {
            return None;
        }
        self.at += 1;
        Some(self.list[self.at - 1])
    }
}

/// Runs on a device or on noise, with `room` log words.
pub fn live(call: &Call, source: Box<dyn Source>, room: usize, buffer: &mut [u8]) -> Result<Ran, Panicked> {
    ran(call, source, room, buffer)
}

/// Runs on the first `given` replies of a list.
pub fn replay(call: &Call, list: &Rc<[u32]>, given: usize, room: usize, buffer: &mut [u8]) -> Result<Ran, Panicked> {
    let source = Given { list: Rc::clone(list), at: 0, given };
    ran(call, Box::new(source), room, buffer)
}

fn ran(call: &Call, source: Box<dyn Source>, room: usize, buffer: &mut [u8]) -> Result<Ran, Panicked> {
    let ran = driver::run(call, source, room, buffer);
    match ran.panic {
        Some(message) => Err(Panicked(message)),
        None => Ok(answered(call, ran.ended, ran.log)),
    }
}

/// The Rust's answer, with what it does not count and what U3 decides in its place.
fn answered(call: &Call, rust: Ended, log: Vec<u32>) -> Ran {
    let by_rule = driver::ruled(call, &rust);
    let ruled = by_rule.is_some();
    Ran { ended: counted(call, by_rule.unwrap_or(rust), &log), log, ruled }
}

/// The Rust counts nothing: the bytes are those of the chunks, and the sectors those of a list, that ended clean in its log.
fn counted(call: &Call, ended: Ended, log: &[u32]) -> Ended {
    match call {
        Call::WritePages { .. } => Ended { programmed: observe(log).programmed, ..ended },
        Call::EraseSectors { .. } => Ended { finished: observe(log).erased, ..ended },
        _ => ended,
    }
}

/// The values that the reads of a log gave.
pub fn replies(log: &[u32]) -> Vec<u32> {
    let reads = log.chunks_exact(2).filter(|access| access[0] >= 0x100);
    reads.map(|access| access[1]).collect()
}
