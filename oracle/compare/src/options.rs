//! The command line.

use crate::inputs::Scale;
use crate::kind::Kind;
use std::path::PathBuf;

pub const USAGE: &str = "\
usage: compare [--long | --mutants | --bench | --once BYTES] [--calls N] [--seed N] [--kinds A,B] [--workspace DIR]
  --long           all register pairs, cuts at every place of longer runs, at least ten million runs
  --mutants        tries wrong ports and wrong drivers, each of which must be caught
  --bench          times both sides
  --once BYTES     runs the port alone, once for each kind with a length
  --calls N        goes on with random calls until N runs are compared
  --seed N         other random inputs
  --kinds A,B      these kinds of call alone
  --workspace DIR  where the oracle's workspace is, for the wrong drivers";

const DEFAULT_CALLS: u64 = 1_050_000;
const LONG_CALLS: u64 = 13_200_000;
const DEFAULT_SEED: u64 = 20_240_601;

/// What is done.
#[derive(Clone, Debug, PartialEq, Eq)]
pub enum Mode {
    Compare,
    Mutants,
    Bench,
    /// The port alone, once, with so many bytes.
    Once(usize),
    Help,
}

#[derive(Clone, Debug)]
pub struct Options {
    pub mode: Mode,
    pub scale: Scale,
    pub calls: u64,
    pub seed: u64,
    pub kinds: Vec<Kind>,
    pub workspace: PathBuf,
}

impl Options {
    pub fn parse(arguments: impl Iterator<Item = String>) -> Result<Self, String> {
        let mut arguments = arguments;
        let mut calls = None;
        let mut options = Options {
            mode: Mode::Compare,
            scale: Scale::Default,
            calls: DEFAULT_CALLS,
            seed: DEFAULT_SEED,
            kinds: Kind::ALL.to_vec(),
            workspace: PathBuf::from(env!("CARGO_MANIFEST_DIR")).join(".."),
        };
        while let Some(argument) = arguments.next() {
            let mut value = || arguments.next().ok_or_else(|| format!("{argument} needs a value"));
            match argument.as_str() {
                "--long" => (options.scale, options.calls) = (Scale::Long, LONG_CALLS),
                "--mutants" => options.mode = Mode::Mutants,
                "--help" => options.mode = Mode::Help,
                "--bench" => options.mode = Mode::Bench,
                "--once" => options.mode = Mode::Once(number(&value()?)? as usize),
                "--calls" => calls = Some(number(&value()?)?),
                "--seed" => options.seed = number(&value()?)?,
                "--kinds" => options.kinds = kinds(&value()?)?,
                "--workspace" => options.workspace = value()?.into(),
                _ => return Err(format!("unknown argument {argument}")),
            }
        }
        options.calls = calls.unwrap_or(options.calls);
        Ok(options)
    }

    /// Every kind of call is run, so that everything expected must be seen.
    pub fn complete(&self) -> bool {
        self.kinds == Kind::ALL
    }
}

fn number(value: &str) -> Result<u64, String> {
    value.parse().map_err(|_| format!("{value} is no number"))
}

fn kinds(value: &str) -> Result<Vec<Kind>, String> {
    let kind = |name: &str| Kind::ALL.iter().copied().find(|kind| kind.name() == name);
    value.split(',').map(|name| kind(name).ok_or_else(|| format!("{name} is no kind of call"))).collect()
}
