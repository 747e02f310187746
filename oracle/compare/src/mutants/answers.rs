//! Wrong refusals, wrong data, wrong counts and wrong bytes of the calls on the array.

use super::edit::{
    CONFIG, ENABLE, RX_DATA, TX_DATA_FOUR, answer, as_if_closed, change_all, change_last, refuse, remove,
};
use super::{Mutant, input, outcome};
use crate::kind::Kind;
use crate::sides::{Case, Outcome};
use call::Call;

const RANGE: &[Kind] = &[Kind::EraseSector, Kind::Program, Kind::WritePages];
const POLLS: &[Kind] = &[Kind::EraseSector, Kind::Program, Kind::WritePages, Kind::EraseSectors];
const ERASE: &[Kind] = &[Kind::EraseSector];
const ERASES: &[Kind] = &[Kind::EraseSector, Kind::EraseSectors];
const PROGRAM: &[Kind] = &[Kind::Program];
const WRITES: &[Kind] = &[Kind::Program, Kind::WritePages];
const PAGES: &[Kind] = &[Kind::WritePages];
const READS: &[Kind] = &[Kind::ReadPageRead, Kind::ReadFastRead];
const FAST_READ: &[Kind] = &[Kind::ReadFastRead];
const ARRAY: u64 = 0x0100_0000;

pub const MUTANTS: &[Mutant] = &[
    outcome("range_limit_mended", RANGE, |case, o| {
        if end(&case.call) == ARRAY {
            accept(case, o);
        }
    }),
    outcome("range_limit_one_low", RANGE, |case, o| {
        if end(&case.call) == ARRAY - 1 {
            refuse(o, 1);
        }
    }),
    input("high_address_bits_dropped", RANGE, |call| with_addr(call, |addr| addr & 0x00FF_FFFF)),
    outcome("alignment_before_range", ERASE, |case, o| {
        answer(case, o, 1, 2, |case| !addr(&case.call).is_multiple_of(0x1_0000))
    }),
    outcome("out_of_range_answers_alignment", ERASE, |case, o| answer(case, o, 1, 2, |_| true)),
    input("alignment_to_4_is_enough", ERASE, |call| {
        with_addr(call, |addr| if addr % 4 == 0 { addr & !0xFFFF } else { addr })
    }),
    outcome("erase_address_low_byte_first", ERASES, |_, o| {
        change_all(o, TX_DATA_FOUR, |word| word & 0xFF | word.swap_bytes() << 8 & 0xFFFF_FF00);
    }),
    outcome("erase_error_answers_programming_error", ERASES, |case, o| answer(case, o, 21, 22, |_| true)),
    outcome("erase_error_answers_done", ERASES, |case, o| answer(case, o, 21, 0, |_| true)),
    outcome("error_end_without_write_disable", POLLS, |_, o| {
        if matches!(o.ended.answer, 21 | 22) {
            remove_last_transfer(o);
        }
    }),
    outcome("error_answered_before_the_clean_up", POLLS, |_, o| {
        if matches!(o.ended.answer, 23 | 24) && clean_up_begun(o) {
            o.ended.answer = 22;
        }
    }),
    outcome("crosses_page_answers_not_aligned", WRITES, |case, o| answer(case, o, 5, 4, |_| true)),
    outcome("crosses_page_before_not_aligned", PROGRAM, |case, o| answer(case, o, 4, 5, crosses)),
    outcome("not_aligned_before_data_too_large", PROGRAM, |case, o| {
        answer(case, o, 3, 4, |case| !length(&case.call).is_multiple_of(4));
    }),
    outcome("data_too_large_before_out_of_range", PROGRAM, |case, o| {
        answer(case, o, 1, 3, |case| length(&case.call) > 240);
    }),
    outcome("page_end_one_low", PROGRAM, |case, o| {
        if o.ended.answer != 1
            && addr(&case.call) % 256 + length(&case.call) as u32 == 256
            && length(&case.call).is_multiple_of(4)
        {
            refuse(o, 5);
        }
    }),
    outcome("data_of_240_refused", PROGRAM, |case, o| {
        if o.ended.answer != 1 && length(&case.call) == 240 {
            refuse(o, 3);
        }
    }),
    outcome("programming_error_answers_done", WRITES, |case, o| answer(case, o, 22, 0, |_| true)),
    outcome("data_words_high_byte_first", WRITES, |_, o| {
        change_all(o, TX_DATA_FOUR, |word| if word & 0xFF == 0x02 { word } else { word.swap_bytes() });
    }),
    outcome("last_data_word_zero", WRITES, |_, o| change_last(o, TX_DATA_FOUR, |_| 0)),
    outcome("last_reply_not_taken", WRITES, |_, o| {
        if let Some(at) = last_reply_of_program(o) {
            remove(o, at - 2, 3);
        }
    }),
    outcome("all_chunks_checked_first", PAGES, |_, o| {
        if matches!(o.ended.answer, 4 | 5) {
            refuse(o, o.ended.answer);
        }
    }),
    outcome("programmed_counts_the_failed_chunk", PAGES, |case, o| {
        if o.ended.answer == 22 {
            o.ended.programmed += (length(&case.call) - o.ended.programmed).min(128);
        }
    }),
    outcome("programmed_in_whole_chunks", PAGES, |_, o| o.ended.programmed = o.ended.programmed.next_multiple_of(128)),
    outcome("programmed_is_the_whole_length", PAGES, |case, o| o.ended.programmed = length(&case.call)),
    outcome("programmed_lost_at_a_refusal", PAGES, |_, o| {
        if matches!(o.ended.answer, 4 | 5) {
            o.ended.programmed = 0;
        }
    }),
    outcome("programmed_lost_at_a_stop", PAGES, |_, o| {
        if matches!(o.ended.answer, 23 | 24) {
            o.ended.programmed = 0;
        }
    }),
    outcome("programmed_at_the_clean_reply", PAGES, |_, o| count_as_if_closed(o, RX_DATA)),
    outcome("programmed_at_the_rising_chip_select", PAGES, |_, o| count_as_if_closed(o, CONFIG)),
    outcome("last_two_bytes_exchanged", READS, |_, o| {
        if let [.., a, b] = o.buffer() {
            std::mem::swap(a, b);
        }
    }),
    outcome("bytes_of_a_word_reversed", READS, |_, o| o.buffer().chunks_exact_mut(4).for_each(<[u8]>::reverse)),
    outcome("dummy_byte_not_dropped", FAST_READ, |case, o| {
        if matches!(case.call, Call::ReadFastRead { dummy_byte: true, .. }) && !o.buffer().is_empty() {
            o.buffer().rotate_right(1);
        }
    }),
    outcome("byte_past_the_buffer_cleared", READS, |case, o| {
        let (bytes, begin) = o.around_buffer();
        bytes[begin + length(&case.call)] = 0;
    }),
    outcome("byte_before_the_buffer_cleared", READS, |_, o| {
        let (bytes, begin) = o.around_buffer();
        bytes[begin - 1] = 0;
    }),
    outcome("last_byte_not_written", READS, |_, o| {
        if let Some(last) = o.buffer().len().checked_sub(1) {
            o.buffer()[last] = o.byte_before(last);
        }
    }),
    outcome("bytes_not_read_are_cleared", READS, |_, o| {
        for place in 0..o.buffer().len() {
            if o.buffer()[place] == o.byte_before(place) {
                o.buffer()[place] = 0;
            }
        }
    }),
    outcome("byte_taken_a_reply_early", READS, |case, o| {
        if o.ended.answer == 23 {
            let mut more = case.given().to_vec();
            more.push(0x10);
            let mut early = Outcome::empty();
            early.run(&case.call, &more, case.room, case.junk);
            o.buffer().copy_from_slice(early.buffer());
        }
    }),
    outcome("fast_read_sends_read", FAST_READ, |_, o| {
        change_all(o, TX_DATA_FOUR, |word| if word & 0xFF == 0x0B { word & !0xFF | 0x03 } else { word });
    }),
    input("dummy_byte_ignored", FAST_READ, |call| match *call {
        Call::ReadFastRead { addr, length, .. } => Call::ReadFastRead { addr, dummy_byte: false, length },
        _ => call.clone(),
    }),
    input("read_address_stops_at_the_array", READS, |call| with_addr(call, |addr| addr.min(0x00FF_FFFF))),
];

fn addr(call: &Call) -> u32 {
    match *call {
        Call::EraseSector { addr }
        | Call::Program { addr, .. }
        | Call::WritePages { addr, .. }
        | Call::ReadPageRead { addr, .. }
        | Call::ReadFastRead { addr, .. } => addr,
        _ => 0,
    }
}

fn with_addr(call: &Call, change: impl Fn(u32) -> u32) -> Call {
    let mut call = call.clone();
    match &mut call {
        Call::EraseSector { addr }
        | Call::Program { addr, .. }
        | Call::WritePages { addr, .. }
        | Call::ReadPageRead { addr, .. }
        | Call::ReadFastRead { addr, .. } => *addr = change(*addr),
        _ => {}
    }
    call
}

/// The bytes that a call is about.
fn length(call: &Call) -> usize {
    match call {
        Call::EraseSector { .. } => 0x1_0000,
        Call::Program { data, .. } | Call::WritePages { data, .. } => data.len(),
        Call::ReadPageRead { length, .. } | Call::ReadFastRead { length, .. } => *length,
        _ => 0,
    }
}

fn end(call: &Call) -> u64 {
    u64::from(addr(call)) + length(call) as u64
}

fn crosses(case: &Case) -> bool {
    addr(&case.call) as usize % 256 + length(&case.call) > 256
}

/// Runs a call that ends at the array's end: one sector lower, with the words of the log put right.
fn accept(case: &Case, o: &mut Outcome) {
    let Some(lower) = addr(&case.call).checked_sub(0x1_0000) else {
        return;
    };
    o.run(&with_addr(&case.call, |_| lower), case.given(), case.room, case.junk);
    change_all(o, TX_DATA_FOUR, |word| if matches!(word & 0xFF, 0x02 | 0xD8) { word + 0x100 } else { word });
}

fn remove_last_transfer(o: &mut Outcome) {
    let accesses = o.ended.used / 2;
    let closings = (0..accesses).filter(|&at| o.log()[2 * at..2 * at + 2] == [ENABLE, 0]).collect::<Vec<_>>();
    if let [.., before, _] = closings.as_slice() {
        remove(o, before + 1, accesses - before - 1);
    }
}

/// A clear status is in the log.
fn clean_up_begun(o: &mut Outcome) -> bool {
    let used = o.ended.used;
    o.log()[..used].chunks_exact(2).any(|access| access == [0x80, 0x30])
}

/// The last reply of the page program transfer, where it was taken: the one before the first write to the two-byte register.
fn last_reply_of_program(o: &mut Outcome) -> Option<usize> {
    let used = o.ended.used;
    let log = &o.log()[..used];
    let command = log.chunks_exact(2).position(|access| access[0] == TX_DATA_FOUR)?;
    let status = log.chunks_exact(2).position(|access| access[0] == 0x84)?;
    let closing = (command..status).find(|&at| log[2 * at..2 * at + 2] == [ENABLE, 0])?;
    (command..closing).rev().find(|&at| log[2 * at] == RX_DATA)
}

/// Counts as if the transfer were closed from its last access to this register on.
fn count_as_if_closed(o: &mut Outcome, register: u32) {
    if let Some(seen) = as_if_closed(o, register) {
        o.ended.programmed = seen.programmed;
    }
}
