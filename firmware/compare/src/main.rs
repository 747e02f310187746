//! Compares the erased package with the proved archive on random calls, in all ways of the package.
//! `--calls N`, `--seed S`; `--from N` begins at a call, to see one difference again.
#![forbid(unsafe_code)]

mod archive;
mod case;
mod check;
mod draw;
mod options;
mod replies;
mod rng;
mod tally;

use check::Rooms;
use options::Options;
use rng::Rng;
use std::process::ExitCode;
use tally::Tally;

const DIFFERS: u8 = 1;
const USAGE: u8 = 2;
const UNSEEN: u8 = 3;

fn main() -> ExitCode {
    let Some(options) = Options::parse(std::env::args().skip(1)) else {
        eprintln!("usage: compare_archive [--calls N] [--seed S] [--from N]");
        return ExitCode::from(USAGE);
    };
    let mut tally = Tally::default();
    if let Err(difference) = compare(&options, &mut tally) {
        println!("{difference}");
        return ExitCode::from(DIFFERS);
    }
    print!("{tally}");
    for unseen in tally.unseen() {
        println!("never seen: {unseen}");
    }
    println!("{} calls, 0 differences", options.calls);
    if tally.unseen().is_empty() { ExitCode::SUCCESS } else { ExitCode::from(UNSEEN) }
}

/// Each call has a generator of its own, so that its number and the seed give it again.
fn compare(options: &Options, tally: &mut Tally) -> Result<(), String> {
    let slab = draw::slab(options.seed);
    let mut rooms = Rooms::default();
    for number in options.from..options.from + options.calls {
        let mut rng = Rng::for_call(options.seed, number);
        let case = case::draw(&mut rng, &slab);
        match check::check(&case, &mut rooms) {
            Ok(ended) => tally.add(case.call, &ended),
            Err(what) => return Err(format!("call {number} of seed {}: {what}\n{case}", options.seed)),
        }
    }
    Ok(())
}
