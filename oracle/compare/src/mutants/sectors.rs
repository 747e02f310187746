//! Wrong lists of sectors: their order, their refusals, their places and their counts.

use super::edit::{CONFIG, RX_DATA, TX_DATA_FOUR, TX_DATA_ONE, as_if_closed, refuse, remove};
use super::{Mutant, input, outcome};
use crate::kind::Kind;
use crate::sides::{Case, Outcome};
use call::{Call, Ended};

const LIST: &[Kind] = &[Kind::EraseSectors];
const SECTOR: u64 = 0x1_0000;
const RANGE_LIMIT: u64 = 0x00FF_FFFF;

pub const MUTANTS: &[Mutant] = &[
    outcome("sectors_in_reverse", LIST, |case, o| {
        if erases(o) {
            erase(case, o, list(case).iter().rev().copied().collect());
        }
    }),
    outcome("sectors_sorted", LIST, |case, o| {
        if erases(o) {
            let mut sorted = list(case).to_vec();
            sorted.sort_unstable();
            erase(case, o, sorted);
        }
    }),
    outcome("last_sector_left_out", LIST, |case, o| {
        if erases(o) && !list(case).is_empty() {
            erase(case, o, list(case)[..list(case).len() - 1].to_vec());
        }
    }),
    outcome("second_sector_from_changed_memory", LIST, |_, o| change_sector(o, 1, |_| 0x0034_12D8)),
    outcome("second_sector_is_the_first_again", LIST, |case, o| {
        let again = list(case).first().map_or(0, |addr| addr >> 8 & 0xFF00 | 0xD8);
        change_sector(o, 1, |_| again);
    }),
    outcome("write_enable_of_the_second_sector_missing", LIST, |_, o| {
        if let Some(at) = second_write_enable(o) {
            remove(o, at, 1);
        }
    }),
    outcome("replies_of_each_sector_from_the_start", LIST, |case, o| {
        if erases(o) {
            one_by_one(case, o, Replies::FromTheStart, Failed::Stops);
        }
    }),
    outcome("list_goes_on_after_21", LIST, |case, o| {
        if erases(o) {
            one_by_one(case, o, Replies::Left, Failed::GoesOn);
        }
    }),
    outcome("rules_tested_while_erasing", LIST, |case, o| {
        if let Some((answer, place)) = named(o) {
            erase(case, o, list(case)[..place].to_vec());
            if o.ended.answer == 0 {
                (o.ended.answer, o.ended.place) = (answer, place as u32);
            }
        }
    }),
    outcome("refusal_logs_a_look", LIST, |_, o| {
        if named(o).is_some() && o.log().len() > 1 {
            o.log()[..2].copy_from_slice(&[0x104, 0]);
        }
    }),
    outcome("refusal_uses_a_reply", LIST, |case, o| {
        o.ended.replies += usize::from(named(o).is_some() && case.given > 0);
    }),
    outcome("finished_at_the_clean_reply", LIST, |_, o| count_as_if_closed(o, RX_DATA)),
    outcome("finished_at_the_rising_chip_select", LIST, |_, o| count_as_if_closed(o, CONFIG)),
    outcome("finished_at_the_erase_command", LIST, |_, o| o.ended.finished = commands(o).len()),
    outcome("finished_counts_the_failed_sector", LIST, |_, o| o.ended.finished += usize::from(o.ended.answer == 21)),
    outcome("finished_counts_the_stopped_sector", LIST, |_, o| {
        o.ended.finished += usize::from(matches!(o.ended.answer, 23 | 24));
    }),
    outcome("finished_one_more", LIST, |_, o| o.ended.finished += usize::from(o.ended.finished > 0)),
    outcome("finished_one_less", LIST, |_, o| o.ended.finished = o.ended.finished.saturating_sub(1)),
    outcome("finished_is_the_length", LIST, |case, o| {
        if erases(o) {
            o.ended.finished = list(case).len();
        }
    }),
    outcome("finished_lost_at_21", LIST, |_, o| {
        if o.ended.answer == 21 {
            o.ended.finished = 0;
        }
    }),
    outcome("finished_lost_at_a_stop", LIST, |_, o| {
        if matches!(o.ended.answer, 23 | 24) {
            o.ended.finished = 0;
        }
    }),
    outcome("finished_at_a_refusal_is_the_place", LIST, |_, o| {
        if let Some((_, place)) = named(o) {
            o.ended.finished = place;
        }
    }),
    outcome("place_from_1", LIST, |_, o| o.ended.place += u32::from(named(o).is_some())),
    outcome("place_always_0", LIST, |_, o| o.ended.place = 0),
    outcome("place_mod_255", LIST, |_, o| o.ended.place %= 255),
    outcome("place_of_a_stop", LIST, |_, o| {
        if matches!(o.ended.answer, 21 | 23 | 24) {
            o.ended.place = o.ended.finished as u32;
        }
    }),
    outcome("place_of_a_list_too_long", LIST, |_, o| o.ended.place += 256 * u32::from(o.ended.answer == 33)),
    outcome("place_of_the_first_occurrence", LIST, |case, o| {
        if let Some((32, place)) = named(o) {
            o.ended.place = list(case).iter().position(|addr| *addr == list(case)[place]).unwrap_or(0) as u32;
        }
    }),
    outcome("last_bad_entry", LIST, |case, o| judge(case, o, |list| bad(list).last().or_else(|| repeats(list).next()))),
    outcome("last_repeat", LIST, |case, o| judge(case, o, |list| bad(list).next().or_else(|| repeats(list).last()))),
    outcome("alignment_before_range", LIST, |case, o| {
        judge(case, o, |list| by_rule(list, |addr| rules(addr).last()).or_else(|| repeats(list).next()));
    }),
    outcome("every_range_before_every_alignment", LIST, |case, o| {
        judge(case, o, |list| {
            let mut bad = bad(list);
            bad.clone().find(|(answer, _)| *answer == 1).or_else(|| bad.next()).or_else(|| repeats(list).next())
        });
    }),
    outcome("repeats_before_bad_entries", LIST, |case, o| {
        judge(case, o, |list| repeats(list).next().or_else(|| bad(list).next()));
    }),
    outcome("refusals_by_place", LIST, |case, o| {
        judge(case, o, |list| {
            let found = [bad(list).next(), repeats(list).next()];
            found.into_iter().flatten().min_by_key(|(_, place)| *place)
        });
    }),
    outcome("length_tested_last", LIST, |case, o| {
        if o.ended.answer == 33 && list(case).len() < 2_000 {
            decide(case, o, bad(list(case)).next().or_else(|| repeats(list(case)).next()));
        }
    }),
    outcome("length_of_257_accepted", LIST, |case, o| {
        if list(case).len() == 257 {
            decide(case, o, bad(list(case)).next().or_else(|| repeats(list(case)).next()));
        }
    }),
    outcome("length_of_256_refused", LIST, |case, o| {
        if list(case).len() == 256 {
            refuse(o, 33);
        }
    }),
    outcome("length_of_255_refused", LIST, |case, o| {
        if list(case).len() == 255 {
            refuse(o, 33);
        }
    }),
    outcome("list_too_long_answers_12", LIST, |_, o| {
        if o.ended.answer == 33 {
            o.ended.answer = 12;
        }
    }),
    outcome("range_limit_one_low_in_a_list", LIST, |case, o| {
        if let Some((2, place)) = named(o)
            && u64::from(list(case)[place]) + SECTOR == RANGE_LIMIT
        {
            o.ended.answer = 1;
        }
    }),
    outcome("range_sum_of_32_bits", LIST, |case, o| {
        judge(case, o, |list| {
            by_rule(list, |addr| rules(addr).find(|rule| *rule != 1 || addr < 0xFFFF_0000))
                .or_else(|| repeats(list).next())
        });
    }),
    input("high_bits_of_an_entry_dropped", LIST, |call| with_entries(call, |addr| addr & 0x00FF_FFFF)),
    input("low_bits_of_an_entry_dropped", LIST, |call| with_entries(call, |addr| addr & !0xFFFF)),
    outcome("bad_first_entry_not_seen", LIST, |case, o| {
        judge(case, o, |list| bad(list).find(|(_, place)| *place > 0).or_else(|| repeats(list).next()));
    }),
    outcome("bad_last_entry_not_seen", LIST, |case, o| {
        judge(case, o, |list| bad(list).find(|(_, place)| place + 1 < list.len()).or_else(|| repeats(list).next()));
    }),
    outcome("repeat_at_the_end_not_seen", LIST, |case, o| {
        judge(case, o, |list| bad(list).next().or_else(|| repeats(list).find(|(_, place)| place + 1 < list.len())));
    }),
    outcome("repeat_of_the_first_entry_not_seen", LIST, |case, o| {
        judge(case, o, |list| bad(list).next().or_else(|| repeats(list).find(|(_, place)| list[*place] != list[0])));
    }),
    outcome("repeats_among_neighbours_alone", LIST, |case, o| {
        judge(case, o, |list| {
            bad(list).next().or_else(|| repeats(list).find(|(_, place)| list[*place] == list[place - 1]))
        });
    }),
    outcome("repeats_of_neighbours_not_seen", LIST, |case, o| {
        judge(case, o, |list| {
            bad(list).next().or_else(|| repeats(list).find(|(_, place)| list[*place] != list[place - 1]))
        });
    }),
    outcome("repeats_dropped_from_the_list", LIST, |case, o| {
        if let Some((32, place)) = named(o) {
            let mut once = list(case).to_vec();
            once.remove(place);
            erase(case, o, once);
        }
    }),
    outcome("empty_list_is_refused", LIST, |case, o| {
        if list(case).is_empty() {
            refuse(o, 1);
        }
    }),
    outcome("empty_list_needs_room", LIST, |case, o| {
        if list(case).is_empty() && case.room < 2 {
            o.ended.answer = 24;
        }
    }),
];

/// A refusal with the place that it names.
type Named = (u32, usize);

fn list(case: &Case) -> &[u32] {
    match &case.call {
        Call::EraseSectors { list } => list,
        _ => &[],
    }
}

fn with_entries(call: &Call, change: impl Fn(u32) -> u32) -> Call {
    let mut call = call.clone();
    if let Call::EraseSectors { list } = &mut call {
        list.iter_mut().for_each(|addr| *addr = change(*addr));
    }
    call
}

/// The list was not refused.
fn erases(o: &Outcome) -> bool {
    matches!(o.ended.answer, 0 | 21 | 23 | 24)
}

/// The refusal, where it names a place.
fn named(o: &Outcome) -> Option<Named> {
    matches!(o.ended.answer, 1 | 2 | 32).then_some((o.ended.answer, o.ended.place as usize))
}

/// Another list in the place of the case's.
fn erase(case: &Case, o: &mut Outcome, list: Vec<u32>) {
    o.run(&Call::EraseSectors { list }, case.given(), case.room, case.junk);
}

/// The rules that an address meets.
fn rules(addr: u32) -> impl DoubleEndedIterator<Item = u32> {
    let range = u64::from(addr) + SECTOR > RANGE_LIMIT;
    let aligned = u64::from(addr) % SECTOR == 0;
    [range.then_some(1), (!aligned).then_some(2)].into_iter().flatten()
}

/// The first entry for which a rule is found.
fn by_rule(list: &[u32], rule: impl Fn(u32) -> Option<u32>) -> Option<Named> {
    list.iter().enumerate().find_map(|(place, addr)| Some((rule(*addr)?, place)))
}

/// The bad entries in order, each with the rule that refuses it.
fn bad(list: &[u32]) -> impl DoubleEndedIterator<Item = Named> + Clone {
    list.iter().enumerate().filter_map(|(place, addr)| Some((rules(*addr).next()?, place)))
}

/// The entries that repeat an earlier one, in order.
fn repeats(list: &[u32]) -> impl DoubleEndedIterator<Item = Named> + Clone {
    (0..list.len()).filter(|place| list[..*place].contains(&list[*place])).map(|place| (32, place))
}

/// Tests a refused list in another way.
fn judge(case: &Case, o: &mut Outcome, judged: impl Fn(&[u32]) -> Option<Named>) {
    if named(o).is_some() {
        decide(case, o, judged(list(case)));
    }
}

/// Refuses the list, or erases it entry by entry.
fn decide(case: &Case, o: &mut Outcome, refusal: Option<Named>) {
    match refusal {
        Some((answer, place)) => {
            refuse(o, answer);
            o.ended.place = place as u32;
        }
        None => one_by_one(case, o, Replies::Left, Failed::Stops),
    }
}

fn count_as_if_closed(o: &mut Outcome, register: u32) {
    if let Some(seen) = as_if_closed(o, register) {
        o.ended.finished = seen.erased;
    }
}

/// The accesses with the erase commands.
fn commands(o: &mut Outcome) -> Vec<usize> {
    let used = o.ended.used;
    let accesses = o.log()[..used].chunks_exact(2).enumerate();
    accesses.filter(|(_, access)| access[0] == TX_DATA_FOUR).map(|(at, _)| at).collect()
}

/// Puts another command word in the place of a sector's.
fn change_sector(o: &mut Outcome, number: usize, change: impl Fn(u32) -> u32) {
    if let Some(at) = commands(o).get(number) {
        let word = &mut o.log()[2 * at + 1];
        *word = change(*word);
    }
}

/// The write enable of the second sector.
fn second_write_enable(o: &mut Outcome) -> Option<usize> {
    let after = *commands(o).first()?;
    let used = o.ended.used;
    let accesses = o.log()[..used].chunks_exact(2).enumerate().skip(after);
    accesses.filter(|(_, access)| *access == [TX_DATA_ONE, 0x06]).map(|(at, _)| at).next()
}

/// Where a sector's replies begin.
#[derive(Clone, Copy, PartialEq, Eq)]
enum Replies {
    Left,
    FromTheStart,
}

/// What becomes of the list where a sector fails.
#[derive(Clone, Copy, PartialEq, Eq)]
enum Failed {
    Stops,
    GoesOn,
}

/// Erases by a list of one entry for each.
fn one_by_one(case: &Case, o: &mut Outcome, replies: Replies, failed: Failed) {
    let mut ended = Ended::default();
    let mut log = Vec::new();
    let mut one = Outcome::empty();
    for addr in list(case) {
        let from = if replies == Replies::Left { ended.replies } else { 0 };
        let call = Call::EraseSectors { list: vec![*addr] };
        one.run(&call, &case.given()[from..], case.room - log.len(), case.junk);
        let used = one.ended.used;
        log.extend_from_slice(&one.log()[..used]);
        ended.answer = one.ended.answer;
        ended.replies += one.ended.replies;
        ended.finished += one.ended.finished;
        if !matches!((ended.answer, failed), (0, _) | (21, Failed::GoesOn)) {
            break;
        }
    }
    refuse(o, 0);
    o.log()[..log.len()].copy_from_slice(&log);
    o.ended = Ended { used: log.len(), ..ended };
}
