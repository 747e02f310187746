//! The wait that document 02 adds (U2): a page program takes a reply for each word that it sends, so that the last word is out
//! before chip select rises.

mod common;

use call::Call;
use common::{lines, replay, run};

const ENABLE: u32 = 0x14;
const TX_DATA: [u32; 4] = [0x1C, 0x80, 0x84, 0x88];
const INTERRUPT_STATUS: u32 = recorder::READ | 0x04;
const RX_DATA: u32 = recorder::READ | 0x20;

fn program(words: usize) -> Call {
    Call::Program { addr: 0, data: vec![0x5A; 4 * words] }
}

/// The offsets of each transfer.
fn transfers(log: &[u32]) -> Vec<Vec<u32>> {
    let mut transfers = Vec::new();
    let mut open = None;
    for access in log.chunks(2) {
        match (access, &mut open) {
            ([ENABLE, 1], None) => open = Some(Vec::new()),
            ([ENABLE, 0], Some(_)) => transfers.extend(open.take()),
            (access, Some(offsets)) => offsets.push(access[0]),
            _ => {}
        }
    }
    transfers
}

/// Words sent and replies taken in each transfer.
fn counts(log: &[u32]) -> Vec<(usize, usize)> {
    let count = |offsets: &[u32], which: &[u32]| offsets.iter().filter(|offset| which.contains(offset)).count();
    transfers(log).iter().map(|offsets| (count(offsets, &TX_DATA), count(offsets, &[RX_DATA]))).collect()
}

/// Write enable, the program, and one look at the status.
#[test]
fn every_word_has_its_reply() {
    for words in 0..=60 {
        let ran = run(&program(words));
        assert_eq!(counts(&ran.log), [(1, 1), (words + 1, words + 1), (1, 1)]);
        assert_eq!((ran.ended.answer, ran.ended.used / 2, ran.ended.replies), (0, 37 + 4 * words, 19 + 3 * words));
    }
}

#[test]
fn each_reply_comes_after_two_status_reads() {
    for words in [0, 1, 2, 32, 60] {
        let offsets = &transfers(&run(&program(words)).log)[1];
        let first = offsets.iter().position(|offset| *offset == INTERRUPT_STATUS).unwrap();
        let (replies, closing) = offsets[first..].split_at(3 * (words + 1));
        assert!(replies.chunks(3).all(|reply| reply == [INTERRUPT_STATUS, INTERRUPT_STATUS, RX_DATA]));
        assert_eq!(closing, [recorder::READ, 0], "chip select rises");
    }
}

#[test]
fn the_last_reply_is_waited_for() {
    let idle = [0, 0x8008_C4C1, 0x8008_C0C1];
    let write_enable = [&idle[..], &[0x10, 0, 0x8008_C0C1]].concat();
    // No word yet; a word that is hidden again; a word.
    let late = [&idle[..], &[0, 0x10, 0, 0x10, 0x10, 0x1234_5678, 0x8008_C0C1]].concat();
    let ran = replay(&program(0), &[&write_enable[..], &late, &write_enable].concat(), usize::MAX);
    assert_eq!(ran.ended.answer, 0);
    assert_eq!(
        lines(&ran.log)[12 + 4..12 + 16],
        [
            "W 1C 00000002",
            "R 00 8008C0C1",
            "W 00 8009C0C1",
            "R 04 00000000",
            "R 04 00000010",
            "R 04 00000000",
            "R 04 00000010",
            "R 04 00000010",
            "R 20 12345678",
            "R 00 8008C0C1",
            "W 00 8008C4C1",
            "W 14 00000000",
        ]
    );
}

/// The chunks of `write_pages` are alike: nothing of one is left for the next to drain.
#[test]
fn a_chunk_of_128_bytes_takes_165_accesses() {
    for chunks in 1..=4 {
        let call = Call::WritePages { addr: 0, data: vec![0; 128 * chunks] };
        let ran = run(&call);
        assert_eq!((ran.ended.answer, ran.ended.used / 2, ran.ended.replies), (0, 165 * chunks, 115 * chunks));
    }
}
