//! How many cases have which answer, and which answers no case has.

use crate::answer::Answered;
use crate::kind;
use crate::turns::{self, turns};
use std::collections::BTreeMap;
use std::fmt::Write;

/// The id fields whose code may be unknown, by their place among the values.
const ID_FIELDS: [(&str, usize, &str); 5] = [
    ("read_id", 2, "memory interface type"),
    ("read_id", 3, "density"),
    ("read_long_id", 2, "memory interface type"),
    ("read_long_id", 3, "density"),
    ("read_long_id", 6, "sector architecture"),
];

#[derive(Default)]
pub struct Table {
    cases: BTreeMap<(usize, u32), usize>,
    /// By place in [ID_FIELDS]: listed codes, unknown ones.
    codes: [[usize; 2]; ID_FIELDS.len()],
    /// By answer: `write_pages` that ended so after a finished chunk, and lists after a finished sector.
    after_chunks: BTreeMap<u32, usize>,
    after_sectors: BTreeMap<u32, usize>,
    turns: [usize; turns::NAMES.len()],
}

impl Table {
    pub fn count(&mut self, kind: usize, answered: &Answered) {
        let ended = &answered.ended;
        *self.cases.entry((kind, ended.answer)).or_default() += 1;
        if ended.programmed > 0 {
            *self.after_chunks.entry(ended.answer).or_default() += 1;
        }
        if ended.finished > 0 {
            *self.after_sectors.entry(ended.answer).or_default() += 1;
        }
        for (cases, taken) in self.turns.iter_mut().zip(turns(&answered.log, kind::polls(kind))) {
            *cases += usize::from(taken);
        }
        for (field, (name, place, _)) in ID_FIELDS.iter().enumerate() {
            if kind::NAMES[kind] == *name && ended.answer == 0 {
                self.codes[field][usize::from(ended.values[*place] == 11)] += 1;
            }
        }
    }

    /// A line for each kind and answer.
    pub fn text(&self) -> String {
        let mut text = String::new();
        for (kind, name) in kind::NAMES.iter().enumerate() {
            let row = self.cases.iter().filter(|((of, _), _)| *of == kind);
            let cells: Vec<String> = row.map(|((_, answer), cases)| format!("{answer}: {cases}")).collect();
            writeln!(text, "{name:<14} {}", cells.join("  ")).unwrap();
        }
        for ((name, _, field), [listed, unknown]) in ID_FIELDS.iter().zip(self.codes) {
            writeln!(text, "{name}, {field}: {listed} listed, {unknown} unknown (11)").unwrap();
        }
        for (name, _, after) in self.afters() {
            let cells: Vec<String> = after.iter().map(|(answer, cases)| format!("{answer}: {cases}")).collect();
            writeln!(text, "{name} {}", cells.join("  ")).unwrap();
        }
        for (name, cases) in turns::NAMES.iter().zip(self.turns) {
            writeln!(text, "{name}: {cases}").unwrap();
        }
        text
    }

    /// Answers after a part of the call is finished: those that there must be, and those that there are.
    fn afters(&self) -> [(&str, &[u32], &BTreeMap<u32, usize>); 2] {
        [
            ("write_pages after a finished chunk", &[0, 4, 5, 22, 23, 24], &self.after_chunks),
            ("erase_sectors after a finished sector", &[0, 21, 23, 24], &self.after_sectors),
        ]
    }

    /// What should be in the list and is not.
    pub fn missing(&self) -> Vec<String> {
        let mut missing = Vec::new();
        for (kind, name) in kind::NAMES.iter().enumerate() {
            let answers = kind::answers(kind).iter().filter(|answer| !self.cases.contains_key(&(kind, **answer)));
            missing.extend(answers.map(|answer| format!("{name} never answers {answer}")));
        }
        for ((name, _, field), codes) in ID_FIELDS.iter().zip(self.codes) {
            if codes.contains(&0) {
                missing.push(format!("{name} has not both kinds of {field}"));
            }
        }
        for (name, answers, after) in self.afters() {
            let answers = answers.iter().filter(|answer| !after.contains_key(answer));
            missing.extend(answers.map(|answer| format!("{name} never has {answer}")));
        }
        let turns = turns::NAMES.iter().zip(self.turns).filter(|(_, cases)| *cases == 0);
        missing.extend(turns.map(|(name, _)| format!("no case has {name}")));
        missing
    }
}
