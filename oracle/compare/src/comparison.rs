//! A comparison from its first sweep to its tables.

use crate::check::{Checker, Found, Limits};
use crate::inputs::{self, Scale, Sweep, Swept};
use crate::kind::Kind;
use crate::mutants::Mutant;
use crate::options::Options;
use crate::rng::Rng;
use crate::shrink::shrink;
use crate::sides::{Case, Failure};
use call::Call;
use std::process::ExitCode;
use std::time::Instant;

/// Runs between two lines of progress.
const PROGRESS: u64 = 1_000_000;

/// Exit codes.
pub const DIFFERENCE: u8 = 1;
const GENERATOR: u8 = 2;
const NOT_SEEN: u8 = 3;

/// The random numbers of a kind of call, the same whichever other kinds are run.
pub fn rng_of(seed: u64, kind: Kind, part: u64) -> Rng {
    Rng::new(Rng::new(seed ^ (kind.index() as u64 + 1) << 32 ^ part << 48).next())
}

fn limits(scale: Scale) -> Limits {
    match scale {
        Scale::Default => Limits { every: 60, cuts: 12 },
        Scale::Long => Limits { every: 400, cuts: 40 },
    }
}

/// Sweeps the kinds and goes on with random calls until there are enough. A mutant changes the port's side.
pub struct Comparison<'a> {
    options: &'a Options,
    pub checker: Checker,
    next_progress: u64,
    started: Instant,
}

impl<'a> Comparison<'a> {
    pub fn new(options: &'a Options, mutant: Option<&'static Mutant>) -> Self {
        let checker = Checker::new(limits(options.scale), mutant);
        Comparison { options, checker, next_progress: PROGRESS, started: Instant::now() }
    }

    pub fn run(&mut self) -> Result<(), Box<Found>> {
        for &kind in &self.options.kinds {
            self.sweep(kind, 0, inputs::sweep)?;
        }
        self.long()?;
        self.random()
    }

    /// The long calls of each kind.
    pub fn long(&mut self) -> Result<(), Box<Found>> {
        self.options.kinds.iter().try_for_each(|&kind| self.sweep(kind, 2, inputs::long))
    }

    fn sweep(&mut self, kind: Kind, part: u64, sweep: fn(Kind, &mut Sweep<'_>) -> Swept) -> Swept {
        let rng = rng_of(self.options.seed, kind, part);
        let scale = self.options.scale;
        let mut visit = |probe| {
            self.checker.probe(probe)?;
            self.progress();
            Ok(())
        };
        sweep(kind, &mut Sweep::new(scale, rng, &mut visit))
    }

    fn random(&mut self) -> Result<(), Box<Found>> {
        let kinds = &self.options.kinds;
        let mut rngs: Vec<Rng> = kinds.iter().map(|&kind| rng_of(self.options.seed, kind, 1)).collect();
        while self.checker.tally.total() < self.options.calls {
            for (&kind, rng) in kinds.iter().zip(&mut rngs) {
                for _ in 0..kind.weight() {
                    self.checker.probe(inputs::random(kind, rng))?;
                }
            }
            self.progress();
        }
        Ok(())
    }

    fn progress(&mut self) {
        let total = self.checker.tally.total();
        if total >= self.next_progress {
            eprintln!("{total} runs, {:.0} s", self.started.elapsed().as_secs_f64());
            self.next_progress = total - total % PROGRESS + PROGRESS;
        }
    }
}

/// The whole comparison, with its tables.
pub fn compare(options: &Options) -> ExitCode {
    println!("seed {}", options.seed);
    let mut comparison = Comparison::new(options, None);
    let found = comparison.run().err();
    let differs = found.as_ref().map(|found| Kind::of(&found.case.call));
    print!("{}", comparison.checker.tally.table(&options.kinds, differs));
    match found {
        Some(found) => report(&mut comparison.checker, *found),
        None => seen(&comparison.checker, options.complete()),
    }
}

/// The smallest failing case.
fn report(checker: &mut Checker, found: Found) -> ExitCode {
    let first = found.failure.to_string();
    let found = shrink(checker, found);
    println!("found as: {first}");
    println!("smallest: {}", found.failure);
    print!("{}", describe(&found.case));
    match found.failure {
        Failure::Differs(_) => ExitCode::from(DIFFERENCE),
        Failure::Panicked(_) => ExitCode::from(GENERATOR),
    }
}

/// Replies and bytes of data that are shown of a long case.
const SHOWN: usize = 200;

fn describe(case: &Case) -> String {
    format!(
        "  kind    {}\n  call    {}\n  room    {} log words\n  replies {} {}\n  junk    {:X?}\n",
        Kind::of(&case.call).name(),
        shown(&case.call),
        case.room,
        case.given,
        some(case.given()),
        case.junk
    )
}

fn shown(call: &Call) -> String {
    match call {
        Call::WritePages { addr, data } => {
            format!("WritePages {{ addr: {addr:X}, data: {} bytes {} }}", data.len(), some(data))
        }
        Call::EraseSectors { list } => format!("EraseSectors {{ list: {} entries {} }}", list.len(), some(list)),
        call => format!("{call:X?}"),
    }
}

/// The first numbers of a list.
fn some<T: std::fmt::UpperHex>(list: &[T]) -> String {
    let shown: Vec<String> = list.iter().take(SHOWN).map(|number| format!("{number:X}")).collect();
    format!("[{}{}]", shown.join(", "), if list.len() > SHOWN { ", .." } else { "" })
}

/// The answers and turns that were seen; where all kinds ran, none may be missing.
fn seen(checker: &Checker, complete: bool) -> ExitCode {
    print!("{}", checker.tally.answer_table());
    let missing = if complete { checker.tally.missing() } else { Vec::new() };
    for line in &missing {
        println!("{line}");
    }
    if missing.is_empty() { ExitCode::SUCCESS } else { ExitCode::from(NOT_SEEN) }
}
