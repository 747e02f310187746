// Made by tools/erase from crates/qspi_calls/src/run.rt; a change belongs there.
//! A call from its start to its end: its run where only replies and a log are lent, and what it hands back.

use crate::qspi_operation;
use crate::qspi_operation::Op;
use crate::qspi_operation::Stepped;
use crate::qspi_script::Gives;
use crate::qspi_script::Status;
use crate::zedboard_bsp::qspi_spansion::words;

// How a call ended, and the used counts: log words and replies.
#[derive(Clone, Copy, Debug, PartialEq, Eq)]
pub struct Ran {
    pub answer: Status,
    pub used: usize,
    pub replies: usize,
}

// What a run hands back.
pub fn finish(s: Stepped) -> Ran {
    Ran {
        answer: s.answer,
        used: s.op.used,
        replies: s.op.replies,
    }
}

// Whether an answer has values: that of a call that is done, or refused for an entry of a list.
fn has_values(status: Status) -> bool {
    matches!(
        status,
        Status::Done | Status::OutOfRange | Status::Alignment | Status::RepeatedSector
    )
}

// A reply, where the answer has values: what its value is made of. 0 where it has none, as the clause says.
pub fn kept(answer: Status, reply: u32) -> u32 {
    if has_values(answer) { reply } else { 0 }
}

// What a call gives, where its answer has values.
pub fn given(answer: Status, gives: Gives) -> Gives {
    if has_values(answer) {
        gives
    } else {
        Gives::Nothing
    }
}

// The one value of an answer: a register's byte, the SLCR clock word, or the place of an entry of a list. 0
// where it has none, and where it has more, as an id: C is handed a word, and clause `value` says this one.
pub fn value(s: Stepped) -> u32 {
    let job = s.op.job;
    match given(s.answer, job.script.gives) {
        Gives::Nothing | Gives::Id | Gives::LongId => 0,
        Gives::Register => words::top_byte(s.op.wire.last) as u32,
        Gives::Clock => job.low_level.clock,
        Gives::Place(at) => at as u32,
    }
}

// A run of a call that is lent only replies and a log.
pub fn command(op: Op, replies: &[u32], log: &mut [u32]) -> Stepped {
    let data = [0u8; 0];
    let mut buffer = [0u8; 0];
    qspi_operation::run(op, &data, &mut buffer, log, replies)
}
