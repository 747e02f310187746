//! The stored answers of the published Rust with U2's wait, line by line, through the erased package.

use replay::{Memory, replay};

const STDIN: &[u8] = include_bytes!("../../../crates/oracle_cases/stdin");
const STDOUT: &str = include_str!("../../../crates/oracle_cases/stdout");
const ANSWERS: usize = 1368;

fn replayed(input: &[u8]) -> String {
    let mut lines = String::new();
    replay(input, &mut Memory::new(), &mut lines).expect("a string takes all lines");
    lines
}

#[test]
fn every_line_is_the_stored_one() {
    let lines = replayed(STDIN);
    for (at, (line, stored)) in lines.lines().zip(STDOUT.lines()).enumerate() {
        assert_eq!(line, stored, "line {at} differs");
    }
    assert_eq!(lines.lines().count(), STDOUT.lines().count(), "lines are missing, or too many");
    assert_eq!(lines, STDOUT);
}

#[test]
fn there_are_all_answers_and_the_bad_line() {
    let lines = replayed(STDIN);
    let answers = lines.lines().filter(|line| !line.starts_with("BAD")).count();
    assert_eq!(answers, ANSWERS);
    assert_eq!(lines.lines().last(), Some("BAD 1368"));
}

#[test]
fn an_input_that_is_no_list_is_bad() {
    assert_eq!(replayed(&[]), "BAD 0\n");
    assert_eq!(replayed(&[0, 0]), "");
    assert_eq!(replayed(&[1, 0]), "BAD 0\n");
    assert_eq!(replayed(&[1, 1]), "BAD 0\n");
    // A kind that is none; a reply past the dictionary.
    assert_eq!(replayed(&[0, 0, 23, 0, 0, 0, 0, 0, 0, 0, 0, 0, 0, 0, 0, 0]), "BAD 0\n");
    assert_eq!(replayed(&[0, 0, 8, 0, 0, 0, 0, 0, 0, 0, 0, 0, 0, 0, 1, 0, 0]), "BAD 0\n");
}

/// An input with one record: a list of sectors, so long, with room for no log and this body.
fn sectors(length: u8, body: &[u8]) -> Vec<u8> {
    let header = [22, 0, 0, 0, 0, 0, 0, 0, length, 0, 0, 0, body.len() as u8, 0];
    [&[0, 0][..], &header, body].concat()
}

#[test]
fn a_list_of_sectors_stands_before_the_replies() {
    let line = |length, body: &[u8]| replayed(&sectors(length, body)).split(' ').nth(3).unwrap_or("BAD").to_owned();
    assert_eq!(line(0, &[]), "0");
    assert_eq!(line(1, &[0, 0, 1, 0]), "24");
    assert_eq!(line(1, &[0, 0, 0xFF, 0]), "1");
    assert_eq!(line(2, &[0, 0, 1, 0, 4, 0, 1, 0]), "2");
    assert_eq!(line(2, &[0, 0, 1, 0, 0, 0, 1, 0]), "32");
    // A list past the body, and a reply past the dictionary.
    assert_eq!(replayed(&sectors(2, &[0, 0, 1, 0, 0, 0, 2])), "BAD 0\n");
    assert_eq!(replayed(&sectors(1, &[0, 0, 1, 0, 0])), "BAD 0\n");
}
