//! Wrong logs and wrong counts.

use super::edit::{
    CONFIG, ENABLE, INTERRUPT_STATUS, LOGGED, READ, READING, RX_DATA, TRANSFERS, accesses, answer, change_last,
    exchange, first, remove,
};
use super::{Mutant, outcome};
use crate::kind::Kind;
use crate::sides::{Case, Outcome};

const CHIP_SELECT: u32 = 1 << 10;
const MANUAL_START: u32 = 1 << 16;
const RX_WAITS: u32 = 1 << 4;

const DOUBLE_READS: &[Kind] = &[Kind::Program, Kind::WritePages, Kind::ReadPageRead, Kind::ReadFastRead];

pub const MUTANTS: &[Mutant] = &[
    outcome("last_access_missing", LOGGED, |_, o| {
        if let Some(last) = accesses(o).checked_sub(1) {
            remove(o, last, 1);
        }
    }),
    outcome("first_access_missing", LOGGED, |_, o| {
        if accesses(o) > 0 {
            remove(o, 0, 1);
        }
    }),
    outcome("first_two_accesses_exchanged", LOGGED, |_, o| {
        if accesses(o) > 1 {
            exchange(o, 0);
        }
    }),
    outcome("last_two_accesses_exchanged", LOGGED, |_, o| {
        if let Some(at) = accesses(o).checked_sub(2) {
            exchange(o, at);
        }
    }),
    outcome("last_value_one_more", LOGGED, |_, o| change_last_word(o, 1, |word| word.wrapping_add(1))),
    outcome("last_offset_four_more", LOGGED, |_, o| change_last_word(o, 2, |word| word + 4)),
    outcome("read_flag_missing", READING, |_, o| {
        if let Some(at) = first(o, |offset, _| offset >= READ) {
            o.log()[2 * at] -= READ;
        }
    }),
    outcome("word_past_used_cleared", LOGGED, |_, o| {
        let used = o.ended.used;
        if let Some(word) = o.log().get_mut(used) {
            *word = 0;
        }
    }),
    outcome("last_log_word_cleared", LOGGED, |case, o| {
        if case.room > o.ended.used {
            o.log()[case.room - 1] = 0;
        }
    }),
    outcome("word_before_log_cleared", LOGGED, |_, o| {
        let (words, begin) = o.around_log();
        words[begin - 1] = 0;
    }),
    outcome("word_behind_log_cleared", LOGGED, |case, o| {
        let (words, begin) = o.around_log();
        words[begin + case.room] = 0;
    }),
    outcome("half_an_access_at_odd_room", LOGGED, |case, o| {
        if o.ended.answer == 24 && case.room % 2 == 1 {
            o.log()[case.room - 1] = INTERRUPT_STATUS;
        }
    }),
    outcome("used_two_more", LOGGED, |_, o| o.ended.used += 2),
    outcome("used_counts_accesses", LOGGED, |_, o| o.ended.used /= 2),
    outcome("replies_one_more", LOGGED, |_, o| o.ended.replies += 1),
    outcome("replies_all_counted", LOGGED, |case, o| o.ended.replies = case.given),
    outcome("reply_used_at_a_full_log", LOGGED, |case, o| {
        if o.ended.answer == 24 && o.ended.replies < case.given {
            o.ended.replies += 1;
        }
    }),
    outcome("replies_tested_before_the_log", READING, |case, o| {
        if o.ended.answer == 24 && read_is_due(case, o) && o.ended.replies == case.given {
            o.ended.answer = 23;
        }
    }),
    outcome("full_log_answers_replies_ended", LOGGED, |case, o| answer(case, o, 24, 23, |_| true)),
    outcome("stopped_call_answers_done", TRANSFERS, |case, o| answer(case, o, 23, 0, |_| true)),
    outcome("one_word_of_log_is_room", LOGGED, |case, o| {
        if o.ended.answer == 24 && case.room % 2 == 1 {
            o.ended.answer = 0;
        }
    }),
    outcome("start_bit_left_at_closing", TRANSFERS, |_, o| change_last(o, CONFIG, |word| word | MANUAL_START)),
    outcome("chip_select_left_low", TRANSFERS, |_, o| change_last(o, CONFIG, |word| word & !CHIP_SELECT)),
    outcome("controller_left_enabled", TRANSFERS, |_, o| change_last(o, ENABLE, |_| 1)),
    outcome("reserved_config_bits_dropped", TRANSFERS, |_, o| change_last(o, CONFIG, |word| word & 0x840D_C4FF)),
    outcome("config_kept_from_the_opening", TRANSFERS, |_, o| {
        let opening = first(o, |offset, _| offset == READ | CONFIG).map(|at| o.log()[2 * at + 1]);
        if let Some(word) = opening {
            change_last(o, CONFIG, |last| word & !CHIP_SELECT | last & (CHIP_SELECT | MANUAL_START));
        }
    }),
    outcome("waiting_word_not_drained", TRANSFERS, |_, o| {
        if accesses(o) > 2 && o.log()[2] == RX_DATA {
            remove(o, 1, 2);
        }
    }),
    outcome("one_status_read_instead_of_two", DOUBLE_READS, |_, o| {
        if let Some(at) = second_status_read(o) {
            remove(o, at, 1);
        }
    }),
];

/// Changes the word that is `from_end` words before the end of what was used.
fn change_last_word(o: &mut Outcome, from_end: usize, change: impl Fn(u32) -> u32) {
    if let Some(at) = o.ended.used.checked_sub(from_end) {
        let word = &mut o.log()[at];
        *word = change(*word);
    }
}

/// With more room the same replies would end the run at the same access.
fn read_is_due(case: &Case, o: &Outcome) -> bool {
    let mut more = Outcome::empty();
    more.run(&case.call, case.given(), case.room + 2, case.junk);
    more.ended.answer == 23 && more.ended.used == o.ended.used
}

/// The second of two status reads in a row that both show a word.
fn second_status_read(o: &mut Outcome) -> Option<usize> {
    let used = o.ended.used;
    let shows = |access: &[u32]| access[0] == INTERRUPT_STATUS && access[1] & RX_WAITS != 0;
    let pairs = o.log()[..used].windows(4).step_by(2);
    pairs.enumerate().find(|(_, pair)| shows(&pair[..2]) && shows(&pair[2..])).map(|(at, _)| at + 1)
}
