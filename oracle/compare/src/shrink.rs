//! Makes a failing case smaller while it still fails.

use crate::check::{Checker, Found};
use crate::domain;
use crate::junk::Junk;
use crate::sides::{Case, Failure};
use call::{Call, Clocks};

/// Log words and replies that a search for a smaller case may go through.
const BUDGET: usize = 20_000_000;

/// The smallest case that was found, with its own failure. A panic stays a panic and a difference a difference.
pub fn shrink(checker: &mut Checker, found: Found) -> Found {
    let mut search = Search { checker, best: found, budget: BUDGET };
    while search.pass() {}
    search.best
}

struct Search<'a> {
    checker: &'a mut Checker,
    best: Found,
    budget: usize,
}

impl Search<'_> {
    /// Makes the case smaller in each way; says whether one of them worked.
    fn pass(&mut self) -> bool {
        if !self.affords(&self.best.case) {
            return false;
        }
        let fewer_replies = numbers(self.best.case.given).into_iter().any(|given| {
            let case = &self.best.case;
            self.improves(Case { given, replies: case.replies[..given].into(), ..case.clone() })
        });
        let less_room = numbers(self.best.case.room).into_iter().any(|room| {
            let case = self.best.case.clone();
            self.improves(Case { room, ..case })
        });
        let smaller_call = smaller_calls(&self.best.case.call).into_iter().any(|call| {
            let case = self.best.case.clone();
            domain::holds(&call) && self.improves(Case { call, ..case })
        });
        fewer_replies | less_room | smaller_call | self.less_junk() || self.simpler_replies()
    }

    fn less_junk(&mut self) -> bool {
        let case = Case { junk: Junk::default(), ..self.best.case.clone() };
        case != self.best.case && self.improves(case)
    }

    /// A run like this one can still be made.
    fn affords(&self, case: &Case) -> bool {
        case.given + case.room < self.budget
    }

    /// Takes the case if it fails too.
    fn improves(&mut self, case: Case) -> bool {
        let Some(left) = self.budget.checked_sub(case.given + case.room + 1) else {
            return false;
        };
        self.budget = left;
        match self.checker.agrees(&case) {
            Err(failure) if same_sort(&failure, &self.best.failure) => {
                self.best = Found { case, failure };
                true
            }
            _ => false,
        }
    }

    /// Puts one reply after the other to 0, to bit 4 alone or to its top byte alone.
    fn simpler_replies(&mut self) -> bool {
        let mut simpler = false;
        for place in 0..self.best.case.given {
            if !self.affords(&self.best.case) {
                return simpler;
            }
            let reply = self.best.case.replies[place];
            for simple in [0, reply & 0x10, reply & 0xFF00_0000] {
                if simple.count_ones() < reply.count_ones() {
                    let mut replies = self.best.case.replies.to_vec();
                    replies[place] = simple;
                    let case = Case { replies: replies.into(), ..self.best.case.clone() };
                    if self.improves(case) {
                        simpler = true;
                        break;
                    }
                }
            }
        }
        simpler
    }
}

fn same_sort(a: &Failure, b: &Failure) -> bool {
    matches!(a, Failure::Differs(_)) == matches!(b, Failure::Differs(_))
}

/// Numbers below `number`: 0, its halves towards it, and one less.
fn numbers(number: usize) -> Vec<usize> {
    let mut steps = Vec::new();
    let mut step = number;
    while step > 0 {
        steps.push(number - step);
        step /= 2;
    }
    steps
}

fn words(word: u32) -> Vec<u32> {
    numbers(word as usize).into_iter().map(|word| word as u32).collect()
}

/// Shorter data, data of zeros.
fn smaller_data(data: &[u8]) -> Vec<Vec<u8>> {
    let mut shorter: Vec<Vec<u8>> = numbers(data.len()).into_iter().map(|length| data[..length].to_vec()).collect();
    if data.len() > 4 {
        shorter.push(data[4..].to_vec());
    }
    if data.iter().any(|byte| *byte != 0) {
        shorter.push(vec![0; data.len()]);
    }
    shorter
}

fn smaller_calls(call: &Call) -> Vec<Call> {
    match call.clone() {
        Call::Program { addr, data } => {
            let shorter = smaller_data(&data).into_iter().map(|data| Call::Program { addr, data });
            let lower = words(addr).into_iter().map(|addr| Call::Program { addr, data: data.clone() });
            shorter.chain(lower).collect()
        }
        Call::WritePages { addr, data } => {
            let shorter = smaller_data(&data).into_iter().map(|data| Call::WritePages { addr, data });
            let lower = words(addr).into_iter().map(|addr| Call::WritePages { addr, data: data.clone() });
            shorter.chain(lower).collect()
        }
        Call::ReadPageRead { addr, length } => {
            let shorter = numbers(length).into_iter().map(|length| Call::ReadPageRead { addr, length });
            shorter.chain(words(addr).into_iter().map(|addr| Call::ReadPageRead { addr, length })).collect()
        }
        Call::ReadFastRead { addr, dummy_byte, length } => {
            let shorter = numbers(length).into_iter().map(|length| Call::ReadFastRead { addr, dummy_byte, length });
            let lower = words(addr).into_iter().map(|addr| Call::ReadFastRead { addr, dummy_byte, length });
            shorter.chain(lower).collect()
        }
        Call::EraseSectors { list } => smaller_lists(&list),
        Call::EraseSector { addr } => words(addr).into_iter().map(|addr| Call::EraseSector { addr }).collect(),
        Call::EnableLinearAddressing { config } => {
            words(config).into_iter().map(|config| Call::EnableLinearAddressing { config }).collect()
        }
        Call::WriteStatus { sr } => words(sr.into()).into_iter().map(|sr| Call::WriteStatus { sr: sr as u8 }).collect(),
        Call::WriteStatusAndConfigRegister { sr, cr } => smaller_registers(sr, cr),
        Call::Initialize { .. } | Call::New { .. } => smaller_settings(call),
        Call::Calculate { .. } | Call::CalculateWithLoopback { .. } => smaller_clock_calls(call),
        _ => Vec::new(),
    }
}

/// Entries up to which a list is tried without each of them, and with lower ones.
const SHORT_LIST: usize = 8;

/// Shorter lists, lists that lack one entry, and lists with a lower one.
fn smaller_lists(list: &[u32]) -> Vec<Call> {
    let mut lists: Vec<Vec<u32>> = numbers(list.len()).into_iter().map(|length| list[..length].to_vec()).collect();
    lists.extend(numbers(list.len()).into_iter().map(|length| list[list.len() - length..].to_vec()));
    for place in 0..if list.len() <= SHORT_LIST { list.len() } else { 0 } {
        lists.push([&list[..place], &list[place + 1..]].concat());
        lists.extend(words(list[place]).into_iter().map(|addr| [&list[..place], &[addr], &list[place + 1..]].concat()));
    }
    lists.into_iter().map(|list| Call::EraseSectors { list }).collect()
}

fn smaller_registers(sr: u8, cr: u8) -> Vec<Call> {
    let status = words(sr.into()).into_iter().map(|sr| Call::WriteStatusAndConfigRegister { sr: sr as u8, cr });
    let config = words(cr.into()).into_iter().map(|cr| Call::WriteStatusAndConfigRegister { sr, cr: cr as u8 });
    status.chain(config).collect()
}

/// One setting at a time put to its plainest value.
fn smaller_settings(call: &Call) -> Vec<Call> {
    let mut calls = Vec::new();
    let mut with = |change: &dyn Fn(&mut Call)| {
        let mut smaller = call.clone();
        change(&mut smaller);
        if smaller != *call {
            calls.push(smaller);
        }
    };
    with(&|call| {
        if let Call::Initialize { src_sel, .. } = call {
            *src_sel = 0;
        }
    });
    with(&|call| {
        if let Call::Initialize { ref_clk_div, .. } = call {
            *ref_clk_div /= 2;
        }
    });
    with(&|call| {
        if let Call::Initialize { baud_rate_div: Some(code), .. } = call {
            *code /= 2;
        }
    });
    with(&|call| match call {
        Call::Initialize { phase: flag, .. } | Call::New { set_quad: flag, .. } => *flag = false,
        _ => {}
    });
    with(&|call| match call {
        Call::Initialize { polarity: flag, .. } | Call::New { clear_protection: flag, .. } => *flag = false,
        _ => {}
    });
    with(&|call| {
        if let Call::New { latency, .. } = call {
            *latency = latency.and_then(|code| code.checked_sub(1));
        }
    });
    calls
}

/// One number at a time made smaller.
fn smaller_clock_calls(call: &Call) -> Vec<Call> {
    let (src_sel, numbers) = match *call {
        Call::Calculate { src_sel, clocks, target_ref, target_interface } => (
            src_sel,
            [
                clocks.io_ref_clk,
                clocks.arm_ref_clk,
                clocks.ddr_ref_clk,
                clocks.cpu_1x_clk,
                target_ref,
                target_interface,
            ],
        ),
        Call::CalculateWithLoopback { src_sel, clocks, target_interface } => (
            src_sel,
            [clocks.io_ref_clk, clocks.arm_ref_clk, clocks.ddr_ref_clk, clocks.cpu_1x_clk, 0, target_interface],
        ),
        _ => return Vec::new(),
    };
    let mut calls = Vec::new();
    if src_sel == 1 {
        calls.push(clock_call(call, 0, numbers));
    }
    for place in 0..numbers.len() {
        for word in words(numbers[place]) {
            let mut fewer = numbers;
            fewer[place] = word;
            calls.push(clock_call(call, src_sel, fewer));
        }
    }
    calls
}

/// A call of the same kind with other numbers.
fn clock_call(like: &Call, src_sel: u8, numbers: [u32; 6]) -> Call {
    let [io_ref_clk, arm_ref_clk, ddr_ref_clk, cpu_1x_clk, target_ref, target_interface] = numbers;
    let clocks = Clocks { io_ref_clk, arm_ref_clk, ddr_ref_clk, cpu_1x_clk };
    match like {
        Call::Calculate { .. } => Call::Calculate { src_sel, clocks, target_ref, target_interface },
        _ => Call::CalculateWithLoopback { src_sel, clocks, target_interface },
    }
}

#[cfg(test)]
mod tests {
    use super::*;

    #[test]
    fn numbers_come_closer() {
        assert_eq!(numbers(0), [0; 0]);
        assert_eq!(numbers(1), [0]);
        assert_eq!(numbers(10), [0, 5, 8, 9]);
    }

    #[test]
    fn smaller_calls_differ() {
        let call = Call::Program { addr: 0x100, data: vec![1; 8] };
        let smaller = smaller_calls(&call);
        assert!(smaller.contains(&Call::Program { addr: 0x100, data: vec![1; 4] }));
        assert!(smaller.contains(&Call::Program { addr: 0x80, data: vec![1; 8] }));
        assert!(!smaller.contains(&call));
    }

    #[test]
    fn smaller_lists_differ() {
        let list = vec![0x1_0000, 0x8, 0x3_0000];
        let smaller = smaller_lists(&list);
        for list in [vec![0x1_0000, 0x8], vec![0x1_0000, 0x3_0000], vec![0x1_0000, 0x4, 0x3_0000]] {
            assert!(smaller.contains(&Call::EraseSectors { list }));
        }
        assert!(!smaller.contains(&Call::EraseSectors { list }));
    }
}
