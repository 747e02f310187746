//! A case: a call with all that it is lent, in words that show it again.
//! Replies and log are cut at random places in some cases.

use crate::rng::Rng;
use crate::{draw, replies};
use replay::call::Call;
use std::fmt::{Display, Formatter, Result};

pub(crate) struct Case<'a> {
    pub call: Call,
    pub list: Vec<u32>,
    pub data: &'a [u8],
    /// Bytes of the read buffer.
    pub buffer: usize,
    /// Words of log.
    pub room: usize,
    pub replies: Vec<u32>,
    /// What log and buffer hold beforehand is made of it.
    pub junk: u32,
}

pub(crate) fn draw<'a>(rng: &mut Rng, slab: &'a [u8]) -> Case<'a> {
    let (call, length) = draw::call(rng);
    let list = if call.takes_list() { draw::list(rng) } else { Vec::new() };
    let data = if call.takes_data() { part(rng, slab, length) } else { &[] };
    let buffer = if call.takes_buffer() { length } else { 0 };
    let drawn = replies::draw(rng, call, &list, data, buffer);
    let mut case = Case { call, list, data, buffer, room: drawn.used, replies: drawn.replies, junk: rng.word() };
    match rng.below(8) {
        0 | 1 => case.replies.truncate(cut(rng, drawn.used / 2)),
        2 | 3 => case.room = cut(rng, drawn.used),
        4 => case.replies.push(rng.word()),
        _ => {}
    }
    case.room += rng.pick(&[0, 0, 1, 2, 3, 16]);
    case
}

/// So many bytes from anywhere in the slab.
fn part<'a>(rng: &mut Rng, slab: &'a [u8], length: usize) -> &'a [u8] {
    let at = rng.below(slab.len() - length + 1);
    &slab[at..at + length]
}

/// A place below the end; the first and the last ones are not rare.
fn cut(rng: &mut Rng, end: usize) -> usize {
    match rng.below(6) {
        0 => rng.below(4).min(end),
        1 => end.saturating_sub(1 + rng.below(4)),
        _ => rng.below(end + 1),
    }
}

impl Display for Case<'_> {
    fn fmt(&self, f: &mut Formatter<'_>) -> Result {
        writeln!(f, "kind: {}\ninputs: {:?}", self.call.name(), self.call)?;
        writeln!(f, "list: {} sectors, {:06X?}", self.list.len(), self.list)?;
        writeln!(f, "data: {} bytes, first {:02X?}", self.data.len(), &self.data[..self.data.len().min(16)])?;
        writeln!(f, "buffer: {} bytes\nroom: {} words", self.buffer, self.room)?;
        write!(f, "replies: {}, {:08X?}", self.replies.len(), self.replies)
    }
}
