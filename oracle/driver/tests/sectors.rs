//! The list of sectors, which the Rust does not have: what is refused of it, and the erases that it is made of.

mod common;

use call::Call;
use common::{Prompt, replay, run, written};
use driver::{Refusal, refusal};

fn refused(list: &[u32]) -> Option<(u32, u32)> {
    refusal(list).map(|Refusal { answer, place }| (answer, place))
}

/// Addresses around every border of the rules whose sum fits 32 bits, so that the Rust has an answer.
fn addresses() -> impl Iterator<Item = u32> {
    let starts = [0, 0x1_0000, 0x8_0000, 0xFE_0000, 0xFF_0000, 0x100_0000, 0x8000_0000, 0xFFFE_0000];
    starts.into_iter().flat_map(|start: u32| [start.wrapping_sub(1), start, start + 1, start + 4, start + 0xFFFF])
}

#[test]
fn one_entry_is_refused_as_the_rust_refuses_it() {
    let addresses = addresses().filter(|addr| addr.checked_add(0x1_0000).is_some());
    for addr in addresses {
        let answer = run(&Call::EraseSector { addr }).ended.answer;
        assert_eq!(refused(&[addr]), (answer != 0).then_some((answer, 0)), "{addr:X}");
    }
    assert_eq!(refused(&[0xFFFF_0000]), Some((1, 0)), "the whole sum");
}

#[test]
fn the_first_bad_place_comes_before_a_repeat() {
    assert_eq!(refused(&[]), None);
    assert_eq!(refused(&[0x1_0000, 0x2_0001, 0xFF_0000]), Some((2, 1)));
    assert_eq!(refused(&[0x1_0000, 0xFF_0001, 0x2_0001]), Some((1, 1)));
    let mut list = vec![0x1_0000; 256];
    assert_eq!(refused(&list), Some((32, 1)));
    list[200] = 0x4;
    assert_eq!(refused(&list), Some((2, 200)));
    list.push(0);
    assert_eq!(refused(&list), Some((33, 0)));
}

#[test]
fn the_first_repeat_is_the_later_of_two() {
    let [a, b, c] = [0, 0x7F_0000, 0xFE_0000];
    assert_eq!(refused(&[a, b, c]), None);
    assert_eq!(refused(&[a, b, c, a, b]), Some((32, 3)));
    assert_eq!(refused(&[a, b, b, a]), Some((32, 2)));
    let sectors: Vec<u32> = (0..0xFF).map(|sector| sector << 16).collect();
    assert_eq!(refused(&sectors), None);
    assert_eq!(refused(&[&sectors[..], &[c]].concat()), Some((32, 255)));
}

#[test]
fn a_refused_list_makes_no_access() {
    for list in [vec![0; 257], vec![0, 0xFF_0000], vec![0, 1], vec![0, 0]] {
        let ran = run(&Call::EraseSectors { list });
        assert!(ran.ended.answer != 0 && ran.log.is_empty() && ran.ended.replies == 0);
    }
}

#[test]
fn a_list_is_its_erases() {
    let list = vec![0x5_0000, 0xFE_0000, 0];
    let singles: Vec<u32> = list.iter().flat_map(|addr| run(&Call::EraseSector { addr: *addr }).log).collect();
    let ran = run(&Call::EraseSectors { list });
    assert_eq!((ran.ended.answer, ran.ended.used), (0, singles.len()));
    assert_eq!(ran.log, singles);
}

#[test]
fn an_error_and_the_ends_stop_a_list() {
    let call = Call::EraseSectors { list: vec![0x5_0000, 0x3_0000] };
    let failed = driver::run(&call, Box::new(Prompt::new(0x2000_0000)), usize::MAX, &mut []);
    assert_eq!(failed.ended.answer, 21);
    assert_eq!(written(&failed.log, 0x1C), [0x0000_05D8]);
    let whole = run(&call).log;
    let replies: Vec<u32> = whole.chunks(2).filter(|access| access[0] >= 0x100).map(|access| access[1]).collect();
    assert_eq!(replay(&call, &replies, whole.len()).ended.answer, 0);
    assert_eq!(replay(&call, &replies, whole.len() - 1).ended.answer, 24);
    assert_eq!(replay(&call, &replies[..replies.len() - 1], whole.len()).ended.answer, 23);
}
