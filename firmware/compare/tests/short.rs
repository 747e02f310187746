//! The program itself: a short comparison, and how it ends where answers are missing or the arguments are none.
//! The long one is the plain command.

use std::process::{Command, Output};

fn run(arguments: &[&str]) -> Output {
    Command::new(env!("CARGO_BIN_EXE_compare_archive")).args(arguments).output().expect("the program runs")
}

fn last_line(output: &Output) -> String {
    String::from_utf8_lossy(&output.stdout).lines().last().unwrap_or_default().to_owned()
}

#[test]
fn calls_agree_and_every_answer_is_seen() {
    let output = run(&["--calls", "40000", "--seed", "7"]);
    assert_eq!(last_line(&output), "40000 calls, 0 differences");
    assert_eq!(output.status.code(), Some(0));
}

#[test]
fn missing_answers_fail() {
    let output = run(&["--calls", "10"]);
    assert_eq!(last_line(&output), "10 calls, 0 differences");
    assert_eq!(output.status.code(), Some(3));
}

#[test]
fn arguments_that_are_none_are_refused() {
    for arguments in [&["--call", "10"][..], &["--calls"], &["--calls", "ten"]] {
        assert_eq!(run(arguments).status.code(), Some(2));
    }
}
