//! Changes to a log that a port has left.

use crate::kind::Kind;
use crate::observe::{Observed, observe};
use crate::sides::{Case, Outcome};
use call::Ended;

pub const READ: u32 = 0x100;
pub const CONFIG: u32 = 0x00;
pub const INTERRUPT_STATUS: u32 = READ | 0x04;
pub const ENABLE: u32 = 0x14;
pub const TX_DATA_FOUR: u32 = 0x1C;
pub const RX_DATA: u32 = READ | 0x20;
pub const TX_DATA_ONE: u32 = 0x80;
pub const TX_DATA_TWO: u32 = 0x84;
pub const TX_DATA_THREE: u32 = 0x88;

/// Kinds with a log.
pub const LOGGED: &[Kind] = {
    let (_, logged) = Kind::ALL.split_at(Kind::Initialize.index());
    logged
};

/// Kinds that read a register.
pub const READING: &[Kind] = {
    let (_, reading) = Kind::ALL.split_at(Kind::EnableLinearAddressing.index());
    reading
};

/// Kinds that make transfers.
pub const TRANSFERS: &[Kind] = {
    let (_, transfers) = Kind::ALL.split_at(Kind::New.index());
    transfers
};

/// Accesses in the log.
pub fn accesses(outcome: &Outcome) -> usize {
    outcome.ended.used / 2
}

/// An access as offset and value.
pub fn access(outcome: &mut Outcome, at: usize) -> (u32, u32) {
    let log = outcome.log();
    (log[2 * at], log[2 * at + 1])
}

/// The first access that is sought.
pub fn first(outcome: &mut Outcome, sought: impl Fn(u32, u32) -> bool) -> Option<usize> {
    (0..accesses(outcome)).find(|&at| {
        let (offset, value) = access(outcome, at);
        sought(offset, value)
    })
}

/// The last access to an offset.
pub fn last_to(outcome: &mut Outcome, offset: u32) -> Option<usize> {
    (0..accesses(outcome)).rev().find(|&at| access(outcome, at).0 == offset)
}

/// Puts another value into the last access to an offset.
pub fn change_last(outcome: &mut Outcome, offset: u32, change: impl Fn(u32) -> u32) {
    if let Some(at) = last_to(outcome, offset) {
        let log = outcome.log();
        log[2 * at + 1] = change(log[2 * at + 1]);
    }
}

/// Puts another value into every access to an offset.
pub fn change_all(outcome: &mut Outcome, offset: u32, change: impl Fn(u32) -> u32) {
    let used = outcome.ended.used;
    for access in outcome.log()[..used].chunks_exact_mut(2) {
        if access[0] == offset {
            access[1] = change(access[1]);
        }
    }
}

/// Takes accesses out of the log, which closes up.
pub fn remove(outcome: &mut Outcome, at: usize, count: usize) {
    let used = outcome.ended.used;
    let log = outcome.log();
    let reads = log[2 * at..2 * (at + count)].chunks_exact(2).filter(|access| access[0] >= READ).count();
    log.copy_within(2 * (at + count)..used, 2 * at);
    for place in used - 2 * count..used {
        outcome.log()[place] = outcome.word_before(place);
    }
    outcome.ended.used -= 2 * count;
    outcome.ended.replies -= reads;
}

/// Exchanges an access with the one after it.
pub fn exchange(outcome: &mut Outcome, at: usize) {
    let log = outcome.log();
    log.swap(2 * at, 2 * at + 2);
    log.swap(2 * at + 1, 2 * at + 3);
}

/// A refusal: nothing was done.
pub fn refuse(outcome: &mut Outcome, answer: u32) {
    for place in 0..outcome.log().len() {
        outcome.log()[place] = outcome.word_before(place);
    }
    for place in 0..outcome.buffer().len() {
        outcome.buffer()[place] = outcome.byte_before(place);
    }
    outcome.ended = Ended { answer, ..Ended::default() };
}

/// What the log shows if the transfer counts as closed from its last access to this register on; nothing where it does not end
/// there.
pub fn as_if_closed(outcome: &mut Outcome, register: u32) -> Option<Observed> {
    let (used, accesses) = (outcome.ended.used, accesses(outcome));
    let at = last_to(outcome, register)?;
    let reply = last_to(outcome, RX_DATA).unwrap_or(0);
    let raises = register == RX_DATA || outcome.log()[2 * at + 1] & 1 << 10 != 0 && at > reply;
    let closes = (at..accesses).all(|at| matches!(outcome.log()[2 * at], RX_DATA | READ | CONFIG));
    (raises && closes).then(|| observe(&[&outcome.log()[..used], &[ENABLE, 0]].concat()))
}

/// The answer `from` becomes `to` where `when` says so.
pub fn answer(case: &Case, outcome: &mut Outcome, from: u32, to: u32, when: impl Fn(&Case) -> bool) {
    if outcome.ended.answer == from && when(case) {
        outcome.ended.answer = to;
    }
}
