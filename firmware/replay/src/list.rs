//! The stored list, record by record: each call is made in all ways on memory that is filled beforehand.
//! Of an input that is no such list it writes `BAD` and the record's number, and nothing after it.

use crate::call::{Call, Ended};
use crate::line;
use crate::record::{HEADER, MOST_DATA, MOST_LISTED, MOST_LOG, MOST_REPLIES, Record, pair_at, word_at};
use crate::ways::{self, Apart, Lent};
use core::fmt::{self, Write};

const UNTOUCHED: u32 = 0xA5A5_5A5A;
const UNTOUCHED_BYTE: u8 = 0x5A;
const MOST_WORDS: usize = 256;
/// The program that replays the list in its own language takes no more.
const INPUT_END: usize = 98_304;

/// What a way of a call is lent.
#[derive(PartialEq, Eq)]
struct Room {
    log: [u32; MOST_LOG],
    buffer: [u8; MOST_DATA],
}

/// The memory of a case, some 60 KiB: a `static` on a board, or in a box.
pub struct Memory {
    /// The dictionary of the replies.
    words: [u32; MOST_WORDS],
    replies: [u32; MOST_REPLIES],
    list: [u32; MOST_LISTED],
    data: [u8; MOST_DATA],
    run: Room,
    stepped: Room,
    driven: Room,
}

impl Room {
    const fn new() -> Room {
        Room { log: [UNTOUCHED; MOST_LOG], buffer: [UNTOUCHED_BYTE; MOST_DATA] }
    }

    fn refill(&mut self) {
        self.log.fill(UNTOUCHED);
        self.buffer.fill(UNTOUCHED_BYTE);
    }

    /// As much as the record says.
    fn lent<'a>(&'a mut self, record: &Record, call: Call, list: &'a [u32], data: &'a [u8]) -> Lent<'a> {
        let length = record.length.min(MOST_DATA);
        Lent {
            list: if call.takes_list() { &list[..length] } else { &[] },
            data: if call.takes_data() { &data[..length] } else { &[] },
            buffer: if call.takes_buffer() { &mut self.buffer[..length] } else { &mut [] },
            log: &mut self.log[..record.room.min(MOST_LOG)],
        }
    }
}

impl Default for Memory {
    fn default() -> Self {
        Self::new()
    }
}

impl Memory {
    pub const fn new() -> Memory {
        Memory {
            words: [0; MOST_WORDS],
            replies: [0; MOST_REPLIES],
            list: [0; MOST_LISTED],
            data: [0; MOST_DATA],
            run: Room::new(),
            stepped: Room::new(),
            driven: Room::new(),
        }
    }

    fn refill(&mut self, seed: u8) {
        for (i, byte) in self.data.iter_mut().enumerate() {
            // Data byte i is 7 i and the seed, modulo 256.
            *byte = (i as u8).wrapping_mul(7).wrapping_add(seed);
        }
        self.run.refill();
        self.stepped.refill();
        self.driven.refill();
    }

    /// Takes over the list of the body and the replies behind it, and gives how many these are; none where the list is past
    /// the body, there are too many replies, or one is none.
    fn take_body(&mut self, record: &Record, body: &[u8], words: usize) -> Option<usize> {
        let (list, places) = body.split_at_checked(4 * record.listed())?;
        if MOST_REPLIES < places.len() {
            return None;
        }
        for (entry, bytes) in self.list.iter_mut().zip(list.chunks_exact(4)) {
            *entry = word_at(bytes, 0);
        }
        for (reply, place) in self.replies.iter_mut().zip(places) {
            *reply = *self.words[..words].get(usize::from(*place))?;
        }
        Some(places.len())
    }
}

/// Replays the list and writes its lines.
pub fn replay(input: &[u8], memory: &mut Memory, out: &mut impl Write) -> fmt::Result {
    let words = pair_at(input, 0);
    let from = 2 + words * 4;
    if INPUT_END <= input.len() || MOST_WORDS < words || input.len() < from {
        return line::bad(out, 0);
    }
    for (i, word) in memory.words[..words].iter_mut().enumerate() {
        *word = word_at(input, 2 + i * 4);
    }
    let (mut rest, mut number) = (&input[from..], 0);
    while !rest.is_empty() {
        let Some((record, body, after)) = next_record(rest) else {
            return line::bad(out, number);
        };
        if !case(&record, body, words, number, memory, out)? {
            return line::bad(out, number);
        }
        rest = after;
        number += 1;
    }
    Ok(())
}

/// The first record of the rest, its body, and what comes after it; none where it is short or out of bounds.
fn next_record(rest: &[u8]) -> Option<(Record, &[u8], &[u8])> {
    let (header, rest) = rest.split_at_checked(HEADER)?;
    let record = Record::header(header);
    let (body, after) = rest.split_at_checked(record.body)?;
    record.is_within().then_some((record, body, after))
}

/// Makes the call and writes its line; false where the body is no list and replies.
fn case(
    record: &Record,
    body: &[u8],
    words: usize,
    number: usize,
    memory: &mut Memory,
    out: &mut impl Write,
) -> Result<bool, fmt::Error> {
    let call = record.call(body);
    let is_clock_call = record.kind < 2;
    let taken = if is_clock_call { Some(0) } else { memory.take_body(record, body, words) };
    let Some(replies) = taken else {
        return Ok(false);
    };
    memory.refill(record.first);
    match all_ways(record, call, replies, memory) {
        Ok(ended) => line::ended(out, number, call, &ended, &memory.run.log, &memory.run.buffer)?,
        Err(what) => line::parted(out, number, call, what)?,
    }
    Ok(true)
}

/// What all ways answer, or what they part in.
fn all_ways(record: &Record, call: Call, replies: usize, memory: &mut Memory) -> Result<Ended, &'static str> {
    let Memory { replies: words, list, data, run, stepped, driven, .. } = memory;
    let replies = &words[..replies];
    let ran = ways::run(call, replies, run.lent(record, call, list, data));
    if ways::driven(call, replies, driven.lent(record, call, list, data)) != ran || driven != run {
        return Err("run and driver end otherwise");
    }
    match ways::stepped(call, replies, stepped.lent(record, call, list, data)) {
        Err(Apart::List) => Err("a start takes a list of sectors without the list"),
        Err(Apart::Lengths) => Err("a step takes other lengths than the start"),
        Err(Apart::Due) => Err("a step makes another access than was due"),
        Err(Apart::Counts) => Err("a step counts another access than was due"),
        Err(Apart::Unmade) => Err("an access that can not be made has another answer"),
        Err(Apart::Ended) => Err("an ended call does not stay ended"),
        Err(Apart::Gives) => Err("the call gives something else"),
        Ok(ended) if ended != ran => Err("run and steps end otherwise"),
        Ok(_) if run != stepped => Err("run and steps leave other memory"),
        Ok(_) => Ok(ran),
    }
}
