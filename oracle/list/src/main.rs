//! Makes the list that `crates/oracle_cases` replays: `stdin`, the calls, and `stdout`, what the published Rust answers to them.
//!
//!     cargo run --release --offline -p list               writes both files
//!     cargo run --release --offline -p list -- --check    says whether they are as they would be written

mod answer;
mod cases;
mod device;
mod finished;
mod kind;
mod record;
mod rng;
mod table;
mod turns;
mod words;

use answer::Case;
use record::Encoded;
use std::path::Path;
use std::process::ExitCode;
use std::{env, fs};
use table::Table;

const LEAST_CASES: usize = 500;

/// Both files, and the cases. The list ends in a record that is cut short, and its text in the line that refuses it.
struct Made {
    cases: Vec<Case>,
    input: Encoded,
    lines: Vec<String>,
    table: Table,
}

fn made() -> Made {
    let cases = cases::all();
    let mut table = Table::default();
    let mut lines = Vec::new();
    for (number, case) in cases.iter().enumerate() {
        let kind = kind::number(&case.call);
        let answered = answer::answered(case);
        table.count(kind, &answered);
        lines.push(answered.line(number, kind));
    }
    lines.push(format!("BAD {}\n", cases.len()));
    Made { input: record::encoded(&cases), cases, lines, table }
}

fn main() -> ExitCode {
    let arguments: Vec<String> = env::args().skip(1).collect();
    let done = match arguments.iter().map(String::as_str).collect::<Vec<_>>()[..] {
        [] => run(write),
        ["--check"] => run(check),
        _ => Err("usage: list [--check]".into()),
    };
    match done {
        Ok(()) => ExitCode::SUCCESS,
        Err(message) => {
            eprintln!("list: {message}");
            ExitCode::FAILURE
        }
    }
}

/// Makes the list, says what is in it, and hands it on.
fn run(end: fn(&Made, &Path) -> Result<(), String>) -> Result<(), String> {
    let made = made();
    print!("{}", made.table.text());
    let (bytes, words) = (made.input.bytes.len(), made.input.words);
    let text: usize = made.lines.iter().map(String::len).sum();
    println!("{} cases, {words} reply words, stdin {bytes} bytes, stdout {text} bytes", made.cases.len());
    let missing = made.table.missing();
    if !missing.is_empty() {
        return Err(missing.join("\nlist: "));
    }
    if made.cases.len() < LEAST_CASES {
        return Err(format!("fewer than {LEAST_CASES} cases"));
    }
    end(&made, &Path::new(env!("CARGO_MANIFEST_DIR")).join("../../crates/oracle_cases"))
}

fn write(made: &Made, folder: &Path) -> Result<(), String> {
    let write = |name: &str, bytes: &[u8]| fs::write(folder.join(name), bytes).map_err(|e| format!("{name}: {e}"));
    write("stdin", &made.input.bytes)?;
    write("stdout", made.lines.concat().as_bytes())
}

fn check(made: &Made, folder: &Path) -> Result<(), String> {
    let read = |name: &str| fs::read(folder.join(name)).map_err(|e| format!("{name}: {e}"));
    let (input, output) = (read("stdin")?, read("stdout")?);
    let text = made.lines.concat();
    if let Some(at) = first_difference(&input, &made.input.bytes) {
        return Err(format!("stdin differs at byte {at}, {}", at_case(made, &made.input.starts, at)));
    }
    if let Some(at) = first_difference(&output, text.as_bytes()) {
        let starts: Vec<usize> =
            made.lines.iter().scan(0, |at, line| Some(std::mem::replace(at, *at + line.len()))).collect();
        return Err(format!("stdout differs at byte {at}, {}", at_case(made, &starts, at)));
    }
    println!("both files are as stored");
    Ok(())
}

fn first_difference(stored: &[u8], made: &[u8]) -> Option<usize> {
    let at = stored.iter().zip(made).position(|(a, b)| a != b);
    at.or_else(|| (stored.len() != made.len()).then_some(stored.len().min(made.len())))
}

/// The case that a byte belongs to, and the line that the Rust gives.
fn at_case(made: &Made, starts: &[usize], at: usize) -> String {
    match starts.iter().rposition(|start| *start <= at) {
        Some(number) if number < made.cases.len() => {
            format!("case {number}: {:X?}\n{}", made.cases[number].call, made.lines[number].trim_end())
        }
        Some(_) => "at the record that is cut short".into(),
        None => "before the first case".into(),
    }
}
