//! Compares the port with the published Rust, call by call.

#[cfg(feature = "bench")]
mod bench;
mod check;
mod comparison;
mod device;
mod domain;
mod inputs;
mod junk;
mod kind;
mod mutants;
mod noise;
mod observe;
mod options;
mod oracle;
mod port;
mod rng;
mod shrink;
mod sides;
mod tally;

use options::{Mode, Options};
use std::process::ExitCode;

fn main() -> ExitCode {
    match Options::parse(std::env::args().skip(1)) {
        Ok(options) => match &options.mode {
            Mode::Compare => comparison::compare(&options),
            Mode::Mutants => mutants::run(&options),
            Mode::Bench => measure(),
            Mode::Once(length) => once(&options, *length),
            Mode::Help => {
                println!("{}", options::USAGE);
                ExitCode::SUCCESS
            }
        },
        Err(message) => {
            eprintln!("{message}\n{}", options::USAGE);
            ExitCode::from(2)
        }
    }
}

#[cfg(feature = "bench")]
fn measure() -> ExitCode {
    bench::run();
    ExitCode::SUCCESS
}

/// Prints the accesses of a call on the port alone, for each kind that is asked for.
#[cfg(feature = "bench")]
fn once(options: &Options, length: usize) -> ExitCode {
    for &kind in &options.kinds {
        match bench::once(kind, length) {
            Ok(accesses) => println!("{accesses}"),
            Err(message) => {
                eprintln!("{message}");
                return ExitCode::from(2);
            }
        }
    }
    ExitCode::SUCCESS
}

#[cfg(not(feature = "bench"))]
fn measure() -> ExitCode {
    eprintln!("this build has no benchmark: run oracle/run --bench");
    ExitCode::from(2)
}

#[cfg(not(feature = "bench"))]
fn once(_options: &Options, _length: usize) -> ExitCode {
    measure()
}
