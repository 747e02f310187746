//! How many calls of each kind ended with which answer, and which answers are still missing.
//! Where a kind's calls can end so, an answer after finished chunks or sectors, the place of a refused entry and the fields of
//! an id count by themselves.

use replay::call::{Call, Ended};
use std::collections::BTreeMap;
use std::fmt::{Display, Formatter, Result};

/// Every answer that a kind can give, by the papers' numbers. `+` is an answer of `write_pages` after a finished chunk or of a
/// list after a finished sector, `@` one that names an entry behind the first; `i`, `d` and `s` are unknown codes of interface,
/// density and sector architecture.
const ANSWERS: [(&str, &str); 24] = [
    ("calculate", "0 6 7 8 12 31"),
    ("loopback", "0 6 8 9 12"),
    ("linear_config", "0 11"),
    ("initialize", "0 12 24"),
    ("enable_linear", "0 23 24"),
    ("enable_io_mode", "0 23 24"),
    ("disable", "0 23 24"),
    ("new", "0 12 23 24"),
    ("write_enable", "0 23 24"),
    ("write_disable", "0 23 24"),
    ("clear_status", "0 23 24"),
    ("write_status", "0 23 24"),
    ("write_both", "0 23 24"),
    ("read_status", "0 23 24"),
    ("read_config", "0 23 24"),
    ("read_id", "0 0i 0d 0id 23 24"),
    ("read_long_id", "0 0i 0d 0s 0id 0is 0ds 0ids 23 24"),
    ("erase_sector", "0 1 2 21 23 24"),
    ("program", "0 1 3 4 5 22 23 24"),
    ("write_pages", "0 0+ 1 4 4+ 5 5+ 22 22+ 23 23+ 24 24+"),
    ("read_page_read", "0 10 23 24"),
    ("read_fast_read", "0 10 23 24"),
    ("erase_sectors", "0 0+ 1 1@ 2 2@ 21 21+ 23 23+ 24 24+ 32@ 33"),
    ("set_protection", "0 12 23 24"),
];

#[derive(Default)]
pub(crate) struct Tally {
    seen: BTreeMap<(&'static str, String), u64>,
}

fn answer(call: Call, ended: &Ended) -> String {
    let mut answer = ended.answer.to_string();
    if ended.counted > 0 {
        answer.push('+');
    }
    if call.takes_list() && ended.values[0] > 0 {
        answer.push('@');
    }
    let is_id = ended.answer == 0 && matches!(call, Call::ReadRdidBase | Call::ReadRdidExtended);
    for (place, field) in [(2, 'i'), (3, 'd'), (6, 's')] {
        if is_id && ended.values[place] != 0 {
            answer.push(field);
        }
    }
    answer
}

impl Tally {
    pub fn add(&mut self, call: Call, ended: &Ended) {
        *self.seen.entry((call.name(), answer(call, ended))).or_default() += 1;
    }

    fn count(&self, kind: &'static str, answer: &str) -> u64 {
        self.seen.get(&(kind, answer.to_owned())).copied().unwrap_or(0)
    }

    /// What a kind can answer and did not, and what it answered and can not.
    pub fn unseen(&self) -> Vec<String> {
        let can = |kind, answer: &str| ANSWERS.iter().any(|a| a.0 == kind && a.1.split(' ').any(|a| a == answer));
        let missing = ANSWERS.iter().flat_map(|(kind, answers)| {
            answers
                .split(' ')
                .filter(|answer| self.count(kind, answer) == 0)
                .map(move |answer| format!("{kind} {answer}"))
        });
        let strange = self.seen.keys().filter(|(kind, answer)| !can(*kind, answer));
        missing.chain(strange.map(|(kind, answer)| format!("a rule for {kind} {answer}"))).collect()
    }
}

impl Display for Tally {
    fn fmt(&self, f: &mut Formatter<'_>) -> Result {
        for (kind, answers) in ANSWERS {
            write!(f, "{kind:<14}")?;
            for answer in answers.split(' ') {
                write!(f, "  {answer}: {}", self.count(kind, answer))?;
            }
            writeln!(f)?;
        }
        Ok(())
    }
}
