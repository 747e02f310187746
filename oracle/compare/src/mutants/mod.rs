//! Wrong ports and wrong drivers, each of which the comparison must catch.

mod answers;
mod clocks;
mod counters;
mod edit;
mod junk;
mod log;
mod registers;
mod sectors;
mod text;

use crate::check::{Checker, Found};
use crate::comparison::Comparison;
use crate::kind::Kind;
use crate::options::Options;
use crate::shrink::shrink;
use crate::sides::{Case, Outcome};
use call::Call;
use std::process::ExitCode;

/// A wrong port: the port with its inputs or its outcome changed.
pub struct Mutant {
    pub name: &'static str,
    /// The kinds of call that it changes.
    pub kinds: &'static [Kind],
    pub input: fn(&Call) -> Call,
    pub outcome: fn(&Case, &mut Outcome),
    /// It is right in short calls, so that the long ones alone are tried.
    pub long: bool,
}

/// A port that is called with other inputs.
const fn input(name: &'static str, kinds: &'static [Kind], input: fn(&Call) -> Call) -> Mutant {
    Mutant { name, kinds, input, outcome: |_, _| {}, long: false }
}

/// A port that leaves another outcome.
const fn outcome(name: &'static str, kinds: &'static [Kind], outcome: fn(&Case, &mut Outcome)) -> Mutant {
    Mutant { name, kinds, input: Call::clone, outcome, long: false }
}

/// A port that is called with other inputs in long calls.
const fn long_input(name: &'static str, kinds: &'static [Kind], changed: fn(&Call) -> Call) -> Mutant {
    Mutant { long: true, ..input(name, kinds, changed) }
}

/// A port that leaves another outcome of long calls.
const fn long_outcome(name: &'static str, kinds: &'static [Kind], changed: fn(&Case, &mut Outcome)) -> Mutant {
    Mutant { long: true, ..outcome(name, kinds, changed) }
}

/// All wrong ports.
fn all() -> impl Iterator<Item = &'static Mutant> {
    let short = log::MUTANTS.iter().chain(registers::MUTANTS).chain(answers::MUTANTS).chain(clocks::MUTANTS);
    short.chain(sectors::MUTANTS).chain(junk::MUTANTS).chain(counters::MUTANTS)
}

/// Tries every wrong port and every wrong driver.
pub fn run(options: &Options) -> ExitCode {
    let (ports, ports_survived) = try_ports(options);
    println!("{ports} wrong ports, {} caught", ports - ports_survived);
    let (drivers, drivers_survived) = match text::try_edits(options) {
        Ok(counts) => counts,
        Err(message) => {
            println!("{message}");
            return ExitCode::from(2);
        }
    };
    println!("{drivers} wrong drivers, {} caught", drivers - drivers_survived);
    let survived = ports_survived + drivers_survived;
    println!("{} mutants, {survived} survived", ports + drivers);
    if survived == 0 { ExitCode::SUCCESS } else { ExitCode::FAILURE }
}

/// Tries each wrong port; gives how many there are and how many survive.
fn try_ports(options: &Options) -> (usize, usize) {
    let (mut tried, mut survived) = (0, 0);
    for mutant in all() {
        tried += 1;
        match try_port(mutant, options) {
            Ok(caught) => println!("caught    {:<42} by {}{}", mutant.name, kinds(mutant), caught),
            Err(kind) => {
                survived += 1;
                println!("SURVIVED  {:<42} in {}", mutant.name, kind.name());
            }
        }
    }
    (tried, survived)
}

/// Every kind of call that the mutant changes must catch it in its sweep. Gives the smallest case of the first kind, with the length
/// of the long call that caught it, or the kind that does not.
fn try_port(mutant: &'static Mutant, options: &Options) -> Result<String, Kind> {
    let mut first = None;
    for &kind in mutant.kinds {
        // Sweeps alone, so that nothing is tried which a comparison would not run.
        let options = Options { calls: 0, kinds: vec![kind], ..options.clone() };
        let mut comparison = Comparison::new(&options, Some(mutant));
        let compared = if mutant.long { comparison.long() } else { comparison.run() };
        let found = compared.err().ok_or(kind)?;
        first.get_or_insert_with(|| caught(mutant, &mut comparison.checker, *found));
    }
    first.ok_or(Kind::Calculate)
}

fn caught(mutant: &Mutant, checker: &mut Checker, found: Found) -> String {
    let length = counters::length(&found.case.call);
    let unit = if Kind::of(&found.case.call) == Kind::EraseSectors { "entries" } else { "bytes" };
    let size = if mutant.long && length > 0 { format!(" in {length} {unit}") } else { String::new() };
    let found = shrink(checker, found);
    format!("{size}: {}{}", found.failure, clocks::numbers(&found.case.call))
}

fn kinds(mutant: &Mutant) -> String {
    match mutant.kinds {
        [kind] => kind.name().to_owned(),
        kinds => format!("each of {} kinds", kinds.len()),
    }
}
