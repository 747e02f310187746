//! Counts that go round too early: right in every short call, so that a long one has to catch them. A modulus that no call could
//! reach is none here, since a port with it is not wrong.

use super::edit::{ENABLE, RX_DATA, TRANSFERS, TX_DATA_FOUR, remove};
use super::{Mutant, long_input, long_outcome};
use crate::kind::Kind;
use crate::observe::{Observed, observe};
use crate::sides::{Case, Outcome};
use call::Call;

const PAGES: &[Kind] = &[Kind::WritePages];
const READS: &[Kind] = &[Kind::ReadPageRead, Kind::ReadFastRead];
const FAST_READ: &[Kind] = &[Kind::ReadFastRead];
const DATA: &[Kind] = &[Kind::WritePages, Kind::ReadPageRead, Kind::ReadFastRead];
const LIST: &[Kind] = &[Kind::EraseSectors];
const POLLS: &[Kind] = &[Kind::EraseSector, Kind::Program, Kind::WritePages, Kind::EraseSectors];

/// The last chunk of the largest save begins here.
const LAST_CHUNK: usize = 16_777_088;

pub const MUTANTS: &[Mutant] = &[
    long_outcome("chunk_address_done_mod_4096", DATA, chunk_address::<4_096>),
    long_outcome("chunk_address_done_mod_32768", DATA, chunk_address::<32_768>),
    long_outcome("chunk_address_done_mod_65536", DATA, chunk_address::<65_536>),
    long_outcome("chunk_address_done_mod_65536_with_dummy", FAST_READ, |case, o| {
        dummy(case, o, chunk_address::<65_536>)
    }),
    long_outcome("chunk_address_done_mod_131072", DATA, chunk_address::<131_072>),
    long_outcome("chunk_address_done_mod_1048576", DATA, chunk_address::<1_048_576>),
    long_outcome("chunk_address_done_mod_8388608", DATA, chunk_address::<8_388_608>),
    long_outcome("chunk_address_done_mod_16777088", DATA, chunk_address::<LAST_CHUNK>),
    long_outcome("chunk_address_at_most_65535", DATA, chunk_address_at_most::<65_535>),
    long_outcome("further_word_place_mod_4096", PAGES, further_word::<4_096>),
    long_outcome("further_word_place_mod_16384", PAGES, further_word::<16_384>),
    long_outcome("further_word_place_mod_65536", PAGES, further_word::<65_536>),
    long_outcome("further_word_place_mod_131072", PAGES, further_word::<131_072>),
    long_outcome("further_word_place_mod_1048576", PAGES, further_word::<1_048_576>),
    long_outcome("further_word_place_mod_8388608", PAGES, further_word::<8_388_608>),
    long_outcome("further_word_place_mod_16777208", PAGES, further_word::<16_777_208>),
    long_outcome("store_byte_done_mod_4096", READS, store_byte::<4_096>),
    long_outcome("store_byte_done_mod_4216", READS, store_byte::<4_216>),
    long_outcome("store_byte_done_mod_4216_with_dummy", FAST_READ, |case, o| dummy(case, o, store_byte::<4_216>)),
    long_outcome("store_byte_done_mod_65472", READS, store_byte::<65_472>),
    long_outcome("store_byte_done_mod_65536", READS, store_byte::<65_536>),
    long_outcome("store_byte_done_mod_131072", READS, store_byte::<131_072>),
    long_outcome("store_byte_done_mod_8388608", READS, store_byte::<8_388_608>),
    long_outcome("store_byte_done_mod_16777216", READS, store_byte::<16_777_216>),
    long_outcome("store_byte_done_mod_16777216_with_dummy", FAST_READ, |case, o| {
        dummy(case, o, store_byte::<16_777_216>);
    }),
    long_outcome("programmed_mod_4096", PAGES, |_, o| o.ended.programmed %= 4_096),
    long_outcome("programmed_mod_65536", PAGES, |_, o| o.ended.programmed %= 65_536),
    long_outcome("programmed_mod_131072", PAGES, |_, o| o.ended.programmed %= 131_072),
    long_outcome("programmed_mod_8388608", PAGES, |_, o| o.ended.programmed %= 8_388_608),
    long_outcome("programmed_mod_16777212", PAGES, |_, o| o.ended.programmed %= 16_777_212),
    long_outcome("programmed_mod_65536_at_4", PAGES, |_, o| programmed_at(o, &[4])),
    long_outcome("programmed_mod_65536_at_22", PAGES, |_, o| programmed_at(o, &[22])),
    long_outcome("programmed_mod_65536_at_23_and_24", PAGES, |_, o| programmed_at(o, &[23, 24])),
    long_outcome("used_mod_65536", DATA, |_, o| o.ended.used %= 65_536),
    long_outcome("used_mod_131072", DATA, |_, o| o.ended.used %= 131_072),
    long_outcome("used_mod_16777216", DATA, |_, o| o.ended.used %= 16_777_216),
    long_outcome("used_mod_33554432", DATA, |_, o| o.ended.used %= 33_554_432),
    long_outcome("replies_mod_65536", DATA, |_, o| o.ended.replies %= 65_536),
    long_outcome("replies_mod_131072", DATA, |_, o| o.ended.replies %= 131_072),
    long_outcome("replies_mod_8388608", DATA, |_, o| o.ended.replies %= 8_388_608),
    long_outcome("log_place_mod_65536", DATA, log_place::<65_536>),
    long_outcome("log_place_mod_131072", DATA, log_place::<131_072>),
    long_outcome("log_place_mod_16777216", DATA, log_place::<16_777_216>),
    long_outcome("log_place_mod_33554432", DATA, log_place::<33_554_432>),
    long_outcome("reply_place_mod_65536", DATA, reply_place::<65_536>),
    long_outcome("reply_place_mod_131072", DATA, reply_place::<131_072>),
    long_outcome("reply_place_mod_8388608", DATA, reply_place::<8_388_608>),
    long_outcome("log_room_mod_65536", DATA, log_room::<65_536>),
    long_outcome("log_room_mod_16777216", DATA, log_room::<16_777_216>),
    long_outcome("replies_given_mod_65536", DATA, replies_given::<65_536>),
    long_outcome("replies_given_mod_8388608", DATA, replies_given::<8_388_608>),
    long_input("length_mod_65536", DATA, |call| with_length(call, |length| length % 65_536)),
    long_input("length_mod_131072", DATA, |call| with_length(call, |length| length % 131_072)),
    long_input("length_mod_8388608", DATA, |call| with_length(call, |length| length % 8_388_608)),
    long_input("read_length_mod_16777216", READS, |call| with_length(call, |length| length % 16_777_216)),
    long_input("length_at_most_65535", DATA, |call| with_length(call, |length| length.min(65_535))),
    long_input("list_length_mod_256", LIST, |call| with_length(call, |length| length % 256)),
    long_input("list_length_mod_65536", LIST, |call| with_length(call, |length| length % 65_536)),
    long_input("list_length_mod_16777216", LIST, |call| with_length(call, |length| length % 16_777_216)),
    long_input("list_length_at_most_255", LIST, |call| with_length(call, |length| length.min(255))),
    long_outcome("finished_mod_128", LIST, |_, o| o.ended.finished %= 128),
    long_outcome("finished_mod_255", LIST, |_, o| o.ended.finished %= 255),
    long_outcome("finished_mod_254_at_21", LIST, |_, o| {
        if o.ended.answer == 21 {
            o.ended.finished %= 254;
        }
    }),
    long_outcome("list_used_mod_4096", LIST, |_, o| o.ended.used %= 4_096),
    long_outcome("list_used_mod_65536", LIST, |_, o| o.ended.used %= 65_536),
    long_outcome("list_replies_mod_4096", LIST, |_, o| o.ended.replies %= 4_096),
    long_outcome("list_log_place_mod_65536", LIST, log_place::<65_536>),
    long_outcome("list_reply_place_mod_4096", LIST, reply_place::<4_096>),
    long_outcome("no_more_than_255_polls", POLLS, |_, o| give_up(o, |seen| seen.busy > 255)),
    long_outcome("no_more_than_65535_polls", POLLS, |_, o| give_up(o, |seen| seen.busy > 65_535)),
    long_outcome("no_more_than_255_looks", TRANSFERS, |_, o| give_up(o, |seen| seen.waits > 255)),
    long_outcome("no_more_than_65535_looks", TRANSFERS, |_, o| give_up(o, |seen| seen.waits > 65_535)),
    long_outcome("no_more_than_126_words_drained", TRANSFERS, |_, o| drain_fewer(o, 126)),
    long_outcome("no_more_than_65535_words_drained", TRANSFERS, |_, o| drain_fewer(o, 65_535)),
];

/// A page program or a read of a log.
struct Chunk {
    /// The access with the command word.
    command: usize,
    /// Bytes of the call before it.
    done: usize,
    /// Accesses with the words after it.
    words: Vec<usize>,
    /// Replies that were taken.
    replies: usize,
}

/// The chunks of a log, in order.
fn chunks(case: &Case, o: &mut Outcome) -> Vec<Chunk> {
    let (used, size) = (o.ended.used, chunk_size(&case.call));
    let mut chunks: Vec<Chunk> = Vec::new();
    let (mut opened, mut inside) = (false, false);
    for (at, access) in o.log()[..used].chunks_exact(2).enumerate() {
        match (access[0], chunks.last_mut()) {
            (ENABLE, _) => (opened, inside) = (access[1] == 1, false),
            (TX_DATA_FOUR, Some(chunk)) if inside => chunk.words.push(at),
            (TX_DATA_FOUR, _) if opened && matches!(access[1] as u8, 0x02 | 0x03 | 0x0B) => {
                inside = true;
                chunks.push(Chunk { command: at, done: size * chunks.len(), words: Vec::new(), replies: 0 });
            }
            (RX_DATA, Some(chunk)) if inside => chunk.replies += 1,
            _ => {}
        }
    }
    chunks
}

/// Bytes of every chunk but the last.
fn chunk_size(call: &Call) -> usize {
    match call {
        Call::WritePages { .. } => 128,
        Call::ReadFastRead { dummy_byte: true, .. } => 247,
        _ => 248,
    }
}

/// The log has so many words that a chunk could begin at `modulus`.
fn long_enough(case: &Case, modulus: usize) -> bool {
    case.room > modulus && length(&case.call) >= modulus
}

/// The bytes of a save or a read, and the entries of a list.
pub fn length(call: &Call) -> usize {
    match call {
        Call::WritePages { data, .. } => data.len(),
        Call::EraseSectors { list } => list.len(),
        Call::ReadPageRead { length, .. } | Call::ReadFastRead { length, .. } => *length,
        _ => 0,
    }
}

/// Only where there is a dummy byte.
fn dummy(case: &Case, o: &mut Outcome, mutant: fn(&Case, &mut Outcome)) {
    if matches!(case.call, Call::ReadFastRead { dummy_byte: true, .. }) {
        mutant(case, o);
    }
}

/// The address of a chunk is the call's and a number that follows from the bytes done.
fn with_chunk_addresses(case: &Case, o: &mut Outcome, from: usize, offset: impl Fn(usize) -> usize) {
    if !long_enough(case, from) {
        return;
    }
    let (Call::WritePages { addr, .. } | Call::ReadPageRead { addr, .. } | Call::ReadFastRead { addr, .. }) = case.call
    else {
        return;
    };
    for chunk in chunks(case, o) {
        let [_, high, middle, low] = addr.wrapping_add(offset(chunk.done) as u32).to_be_bytes();
        let word = &mut o.log()[2 * chunk.command + 1];
        *word = u32::from_le_bytes([*word as u8, high, middle, low]);
    }
}

fn chunk_address<const M: usize>(case: &Case, o: &mut Outcome) {
    with_chunk_addresses(case, o, M, |done| done % M);
}

fn chunk_address_at_most<const M: usize>(case: &Case, o: &mut Outcome) {
    with_chunk_addresses(case, o, M, |done| done.min(M));
}

/// A data word is taken from its place in the data, modulo.
fn further_word<const M: usize>(case: &Case, o: &mut Outcome) {
    let Call::WritePages { data, .. } = &case.call else {
        return;
    };
    if !long_enough(case, M) {
        return;
    }
    for chunk in chunks(case, o) {
        for (index, &at) in chunk.words.iter().enumerate() {
            let place = (chunk.done + 4 * index) % M;
            let bytes = data[place..place + 4].try_into().unwrap_or_default();
            o.log()[2 * at + 1] = u32::from_le_bytes(bytes);
        }
    }
}

/// The bytes of a chunk go to the buffer from the bytes done on, modulo.
fn store_byte<const M: usize>(case: &Case, o: &mut Outcome) {
    if !long_enough(case, M) {
        return;
    }
    let read = o.buffer().to_vec();
    let mut bytes: Vec<u8> = (0..read.len()).map(|place| o.byte_before(place)).collect();
    let dropped = if matches!(case.call, Call::ReadFastRead { dummy_byte: true, .. }) { 5 } else { 4 };
    for chunk in chunks(case, o) {
        let stored = (4 * chunk.replies).saturating_sub(dropped).min(chunk_size(&case.call));
        let end = read.len().min(chunk.done + stored);
        for (byte, read) in bytes[chunk.done % M..].iter_mut().zip(&read[chunk.done..end]) {
            *byte = *read;
        }
    }
    o.buffer().copy_from_slice(&bytes);
}

fn programmed_at(o: &mut Outcome, answers: &[u32]) {
    if answers.contains(&o.ended.answer) {
        o.ended.programmed %= 65_536;
    }
}

/// Log words go to their place, modulo.
fn log_place<const M: usize>(_: &Case, o: &mut Outcome) {
    let used = o.ended.used;
    if used <= M {
        return;
    }
    let log = o.log()[..used].to_vec();
    for (place, &word) in log.iter().enumerate() {
        o.log()[place] = o.word_before(place);
        o.log()[place % M] = word;
    }
}

/// Replies are taken from their place, modulo.
fn reply_place<const M: usize>(case: &Case, o: &mut Outcome) {
    if o.ended.replies > M {
        let replies: Vec<u32> = (0..case.given).map(|place| case.replies[place % M]).collect();
        o.run(&case.call, &replies, case.room, case.junk);
    }
}

/// The log is taken to have fewer words: a run that needs more ends with 24.
fn log_room<const M: usize>(case: &Case, o: &mut Outcome) {
    if case.room >= M {
        run_within(case, o, case.given, case.room % M);
    }
}

/// There are taken to be fewer replies: a run that needs more ends with 23.
fn replies_given<const M: usize>(case: &Case, o: &mut Outcome) {
    if case.given >= M {
        run_within(case, o, case.given % M, case.room);
    }
}

/// What a run with less leaves in the memory of the case.
fn run_within(case: &Case, o: &mut Outcome, given: usize, room: usize) {
    let mut less = Outcome::empty();
    less.run(&case.call, &case.replies[..given], room, case.junk);
    o.run(&case.call, &[], case.room, case.junk);
    o.log()[..room].copy_from_slice(less.log());
    o.buffer().copy_from_slice(less.buffer());
    o.ended = less.ended;
}

fn with_length(call: &Call, change: impl Fn(usize) -> usize) -> Call {
    let mut call = call.clone();
    match &mut call {
        Call::WritePages { data, .. } => data.truncate(change(data.len())),
        Call::EraseSectors { list } => list.truncate(change(list.len())),
        Call::ReadPageRead { length, .. } | Call::ReadFastRead { length, .. } => *length = change(*length),
        _ => {}
    }
    call
}

fn observed(o: &mut Outcome) -> Observed {
    let used = o.ended.used;
    observe(&o.log()[..used])
}

/// Answers that the replies ended, because something was waited for too long.
fn give_up(o: &mut Outcome, too_long: impl Fn(&Observed) -> bool) {
    if too_long(&observed(o)) {
        o.ended.answer = 23;
    }
}

/// Leaves the last two accesses of a drain out where it took more words than `most`.
fn drain_fewer(o: &mut Outcome, most: usize) {
    if observed(o).drains > most {
        remove(o, 0, 2);
    }
}
