//! One run on both sides, and all that is compared of it.

use crate::junk::Junk;
use crate::mutants::Mutant;
use crate::oracle::{self, Panicked};
use crate::port;
use call::{Call, Ended};
use recorder::Source;
use std::fmt;
use std::rc::Rc;

/// Words before and after the log that is lent to the port, which it must not touch.
const GUARD_WORDS: usize = 4;
/// Bytes before and after the buffer. The number is odd, so that the buffer is not aligned.
const GUARD_BYTES: usize = 13;

/// One run: a call on the first `given` replies of a list, with room for a log.
#[derive(Clone, Debug, PartialEq, Eq)]
pub struct Case {
    pub call: Call,
    pub replies: Rc<[u32]>,
    pub given: usize,
    /// Log words.
    pub room: usize,
    pub junk: Junk,
}

impl Case {
    /// Without replies and room.
    pub fn empty(call: Call) -> Self {
        Case { call, replies: Rc::new([]), given: 0, room: 0, junk: Junk::default() }
    }

    pub fn given(&self) -> &[u32] {
        &self.replies[..self.given]
    }
}

/// The first thing that differs.
#[derive(Clone, Debug)]
pub struct Difference {
    pub what: String,
    pub oracle: String,
    pub port: String,
    /// U3's rule had a part in the oracle's answer.
    pub ruled: bool,
}

/// Why a run is no agreement.
#[derive(Clone, Debug)]
pub enum Failure {
    Differs(Difference),
    /// The Rust panicked: a call out of the domain.
    Panicked(Panicked),
}

impl fmt::Display for Failure {
    fn fmt(&self, f: &mut fmt::Formatter<'_>) -> fmt::Result {
        match self {
            Failure::Differs(d) => {
                let side = if d.ruled { "Rust with U3's rule" } else { "Rust" };
                write!(f, "{}: {side} {}, port {}", d.what, d.oracle, d.port)
            }
            Failure::Panicked(p) => write!(f, "the Rust panicked (generator at fault): {}", p.0),
        }
    }
}

/// What the port leaves, with the guards on both sides of what was lent.
#[derive(Debug)]
pub struct Outcome {
    pub ended: Ended,
    /// The log between guards.
    guarded_log: Vec<u32>,
    /// The buffer between guards.
    guarded_buffer: Vec<u8>,
    /// What both held before.
    junk: Junk,
}

impl Outcome {
    pub fn empty() -> Self {
        Outcome { ended: Ended::default(), guarded_log: Vec::new(), guarded_buffer: Vec::new(), junk: Junk::default() }
    }

    /// The log that was lent.
    pub fn log(&mut self) -> &mut [u32] {
        let end = self.guarded_log.len() - GUARD_WORDS;
        &mut self.guarded_log[GUARD_WORDS..end]
    }

    /// The log with its guards, and where it begins.
    pub fn around_log(&mut self) -> (&mut [u32], usize) {
        (&mut self.guarded_log, GUARD_WORDS)
    }

    /// The buffer that was lent.
    pub fn buffer(&mut self) -> &mut [u8] {
        let end = self.guarded_buffer.len() - GUARD_BYTES;
        &mut self.guarded_buffer[GUARD_BYTES..end]
    }

    /// The buffer with its guards, and where it begins.
    pub fn around_buffer(&mut self) -> (&mut [u8], usize) {
        (&mut self.guarded_buffer, GUARD_BYTES)
    }

    /// Runs the port on memory that is as before.
    pub fn run(&mut self, call: &Call, replies: &[u32], room: usize, junk: Junk) {
        let length = read_length(call);
        self.junk = junk;
        fill(&mut self.guarded_log, room + 2 * GUARD_WORDS, |place| junk.word(place));
        fill(&mut self.guarded_buffer, length + 2 * GUARD_BYTES, |place| junk.byte(place));
        let log = &mut self.guarded_log[GUARD_WORDS..GUARD_WORDS + room];
        let buffer = &mut self.guarded_buffer[GUARD_BYTES..GUARD_BYTES + length];
        self.ended = port::run(call, replies, log, buffer, junk);
    }

    /// What a lent log word held before.
    pub fn word_before(&self, place: usize) -> u32 {
        self.junk.word(place + GUARD_WORDS)
    }

    /// What a lent buffer byte held before.
    pub fn byte_before(&self, place: usize) -> u8 {
        self.junk.byte(place + GUARD_BYTES)
    }
}

fn fill<T>(list: &mut Vec<T>, length: usize, pattern: impl Fn(usize) -> T) {
    list.clear();
    list.extend((0..length).map(pattern));
}

/// The bytes that a call reads.
pub fn read_length(call: &Call) -> usize {
    match call {
        Call::ReadPageRead { length, .. } | Call::ReadFastRead { length, .. } => *length,
        _ => 0,
    }
}

/// A buffer for the Rust, filled and guarded like the port's.
fn guarded_buffer(buffer: &mut Vec<u8>, length: usize, junk: Junk) -> &mut [u8] {
    fill(buffer, length + 2 * GUARD_BYTES, |place| junk.byte(place));
    &mut buffer[GUARD_BYTES..GUARD_BYTES + length]
}

/// Both sides, with memory that is used again for each run.
pub struct Sides {
    mutant: Option<&'static Mutant>,
    outcome: Outcome,
    oracle_buffer: Vec<u8>,
}

impl Sides {
    /// With a mutant the port's side is changed by it.
    pub fn new(mutant: Option<&'static Mutant>) -> Self {
        Sides { mutant, outcome: Outcome::empty(), oracle_buffer: Vec::new() }
    }

    /// Runs the Rust live, with `room` log words.
    pub fn live(&mut self, call: &Call, source: Box<dyn Source>, room: usize) -> Result<oracle::Ran, Failure> {
        let buffer = guarded_buffer(&mut self.oracle_buffer, read_length(call), Junk::default());
        oracle::live(call, source, room, buffer).map_err(Failure::Panicked)
    }

    /// Runs both sides and compares everything. The port goes first and the Rust takes the same data and replies from the same
    /// memory, so that a port which changes what it may only read is seen as well.
    pub fn run(&mut self, case: &Case) -> Result<oracle::Ran, Failure> {
        self.run_port(case);
        let buffer = guarded_buffer(&mut self.oracle_buffer, read_length(&case.call), case.junk);
        let ran =
            oracle::replay(&case.call, &case.replies, case.given, case.room, buffer).map_err(Failure::Panicked)?;
        match self.difference(&ran) {
            None => Ok(ran),
            Some(difference) => Err(Failure::Differs(Difference { ruled: ran.ruled, ..difference })),
        }
    }

    fn run_port(&mut self, case: &Case) {
        match self.mutant {
            None => self.outcome.run(&case.call, case.given(), case.room, case.junk),
            Some(mutant) => {
                self.outcome.run(&(mutant.input)(&case.call), case.given(), case.room, case.junk);
                (mutant.outcome)(case, &mut self.outcome);
            }
        }
    }

    fn difference(&self, ran: &oracle::Ran) -> Option<Difference> {
        ended_difference(&ran.ended, &self.outcome.ended)
            .or_else(|| log_difference(&ran.log, &self.outcome.guarded_log, self.outcome.junk))
            .or_else(|| buffer_difference(&self.oracle_buffer, &self.outcome.guarded_buffer))
    }
}

fn differs(what: String, oracle: impl fmt::Display, port: impl fmt::Display) -> Option<Difference> {
    Some(Difference { what, oracle: oracle.to_string(), port: port.to_string(), ruled: false })
}

fn ended_difference(oracle: &Ended, port: &Ended) -> Option<Difference> {
    let counts = [
        ("answer", oracle.answer as usize, port.answer as usize),
        ("place", oracle.place as usize, port.place as usize),
        ("log words used", oracle.used, port.used),
        ("replies used", oracle.replies, port.replies),
        ("bytes programmed", oracle.programmed, port.programmed),
        ("sectors finished", oracle.finished, port.finished),
    ];
    if let Some((what, oracle, port)) = counts.into_iter().find(|(_, oracle, port)| oracle != port) {
        return differs(what.to_owned(), oracle, port);
    }
    if oracle.values != port.values {
        return differs("values".to_owned(), format!("{:X?}", oracle.values), format!("{:X?}", port.values));
    }
    None
}

/// The Rust's words, and around them what was there before.
fn log_difference(oracle: &[u32], guarded: &[u32], junk: Junk) -> Option<Difference> {
    let used = GUARD_WORDS..GUARD_WORDS + oracle.len();
    let kept = |place: usize| guarded[place] == junk.word(place);
    if guarded.get(used.clone()) == Some(oracle) && (0..used.start).all(kept) && (used.end..guarded.len()).all(kept) {
        return None;
    }
    let expected = |place: usize| {
        let inside = place.checked_sub(GUARD_WORDS).and_then(|at| oracle.get(at));
        inside.copied().unwrap_or_else(|| junk.word(place))
    };
    let place = (0..guarded.len()).find(|&place| guarded[place] != expected(place))?;
    let at = place as isize - GUARD_WORDS as isize;
    differs(
        format!("log word {at} (access {})", at.div_euclid(2)),
        format!("{:08X}", expected(place)),
        format!("{:08X}", guarded[place]),
    )
}

fn buffer_difference(oracle: &[u8], port: &[u8]) -> Option<Difference> {
    if oracle == port {
        return None;
    }
    let place = (0..port.len()).find(|&place| oracle.get(place) != port.get(place))?;
    let at = place as isize - GUARD_BYTES as isize;
    differs(format!("buffer byte {at}"), format!("{:02X}", oracle[place]), format!("{:02X}", port[place]))
}
