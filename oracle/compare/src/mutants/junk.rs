//! Ports that look at what they may not look at: arguments without a meaning, and memory before it is written.

use super::edit::{CONFIG, LOGGED, TX_DATA_THREE, change_all, change_last, refuse};
use super::{Mutant, outcome};
use crate::kind::Kind;
use call::{Call, Clocks};

const NEW: &[Kind] = &[Kind::New];
const INITIALIZE: &[Kind] = &[Kind::Initialize];
const CALCULATE: &[Kind] = &[Kind::Calculate];
const CLOCKS: &[Kind] = &[Kind::Calculate, Kind::CalculateWithLoopback];
const READS: &[Kind] = &[Kind::ReadPageRead, Kind::ReadFastRead];

pub const MUTANTS: &[Mutant] = &[
    outcome("latency_refused_although_not_set", NEW, |case, o| {
        if without_latency(&case.call) && case.junk.latency() > 3 {
            refuse(o, 12);
        }
    }),
    outcome("latency_255_refused_although_not_set", NEW, |case, o| {
        if without_latency(&case.call) && case.junk.latency() == 255 {
            refuse(o, 12);
        }
    }),
    outcome("latency_written_although_not_set", NEW, |case, o| {
        if without_latency(&case.call) {
            let latency = u32::from(case.junk.latency() % 4);
            change_all(o, TX_DATA_THREE, |word| word & !0xC0_0000 | latency << 22);
        }
    }),
    outcome("code_refused_beside_loopback", INITIALIZE, |case, o| {
        if with_loopback(&case.call) && case.junk.baud_rate_div() == 7 {
            refuse(o, 12);
        }
    }),
    outcome("code_written_beside_loopback", INITIALIZE, |case, o| {
        if with_loopback(&case.call) {
            let code = u32::from(case.junk.baud_rate_div());
            change_last(o, CONFIG, |word| word | code << 3);
        }
    }),
    outcome("clock_of_0_that_is_not_the_source_refused", CLOCKS, |case, o| {
        if let Call::Calculate { clocks, .. } | Call::CalculateWithLoopback { clocks, .. } = &case.call {
            let Clocks { io_ref_clk, arm_ref_clk, ddr_ref_clk, .. } = *clocks;
            if o.ended.answer == 0 && [io_ref_clk, arm_ref_clk, ddr_ref_clk].contains(&0) {
                refuse(o, 8);
            }
        }
    }),
    outcome("cpu_1x_of_0_refused_with_loopback", &[Kind::CalculateWithLoopback], |case, o| {
        if matches!(&case.call, Call::CalculateWithLoopback { clocks, .. } if clocks.cpu_1x_clk == 0) {
            refuse(o, 8);
        }
    }),
    outcome("target_of_0_before_the_other_refusals", CALCULATE, |case, o| {
        if matches!(case.call, Call::Calculate { target_interface: 0, .. }) {
            refuse(o, 8);
        }
    }),
    outcome("empty_log_answers_done", LOGGED, |case, o| {
        if case.room == 0 && o.ended.answer == 24 {
            o.ended.answer = 0;
        }
    }),
    outcome("empty_buffer_read_of_one_byte", READS, |case, o| {
        if let Call::ReadPageRead { addr, length: 0 } = case.call {
            o.run(&Call::ReadPageRead { addr, length: 1 }, case.given(), case.room, case.junk);
        } else if let Call::ReadFastRead { addr, dummy_byte, length: 0 } = case.call {
            o.run(&Call::ReadFastRead { addr, dummy_byte, length: 1 }, case.given(), case.room, case.junk);
        }
    }),
    outcome("empty_list_read_of_one_entry", &[Kind::EraseSectors], |case, o| {
        if matches!(&case.call, Call::EraseSectors { list } if list.is_empty()) {
            o.run(&Call::EraseSectors { list: vec![0] }, case.given(), case.room, case.junk);
        }
    }),
    outcome("first_log_word_kept_where_it_was_a_multiple_of_256", LOGGED, |_, o| {
        let before = o.word_before(0);
        if o.ended.used > 0 && before % 256 == 0 {
            o.log()[0] = before;
        }
    }),
    outcome("first_byte_kept_where_it_was_0", READS, |_, o| {
        if !o.buffer().is_empty() && o.byte_before(0) == 0 {
            o.buffer()[0] = 0;
        }
    }),
];

fn without_latency(call: &Call) -> bool {
    matches!(call, Call::New { latency: None, .. })
}

fn with_loopback(call: &Call) -> bool {
    matches!(call, Call::Initialize { baud_rate_div: None, .. })
}
