//! A run ends where replies or log end, and nothing follows in the log.

mod common;

use call::Call;
use common::{Prompt, WRITE_ENABLE_REPLIES, replay, run};
use driver::Source;

fn whole() -> Vec<u32> {
    replay(&Call::WriteEnable, &WRITE_ENABLE_REPLIES, usize::MAX).log
}

#[test]
fn replies_end_at_every_read() {
    let whole = whole();
    let reads = whole.chunks(2).enumerate().filter(|(_, access)| access[0] >= recorder::READ);
    for (replies, (at, _)) in reads.enumerate() {
        let ran = replay(&Call::WriteEnable, &WRITE_ENABLE_REPLIES[..replies], usize::MAX);
        assert_eq!((ran.ended.answer, ran.ended.replies, ran.ended.used), (23, replies, 2 * at));
        assert_eq!(ran.log, whole[..2 * at]);
        assert_eq!(ran.panic, None);
    }
}

#[test]
fn log_ends_at_every_word() {
    let whole = whole();
    for room in 0..whole.len() {
        let ran = replay(&Call::WriteEnable, &WRITE_ENABLE_REPLIES, room);
        let kept = &whole[..room / 2 * 2];
        let replies = kept.chunks(2).filter(|access| access[0] >= recorder::READ).count();
        assert_eq!((ran.ended.answer, ran.ended.used, ran.ended.replies), (24, kept.len(), replies));
        assert_eq!(ran.log, kept);
    }
    assert_eq!(replay(&Call::WriteEnable, &WRITE_ENABLE_REPLIES, whole.len()).ended.answer, 0);
}

#[test]
fn full_log_comes_before_ended_replies() {
    assert_eq!(replay(&Call::WriteEnable, &[], 1).ended.answer, 24);
    assert_eq!(replay(&Call::WriteEnable, &[], 2).ended.answer, 23);
    assert_eq!(replay(&Call::EraseSector { addr: 1 << 24 }, &[], 0).ended.answer, 1, "no access is due");
}

/// Counts what the recorder tells it.
struct Counting(Prompt, usize, usize);

impl Source for Counting {
    fn read(&mut self, offset: u32) -> Option<u32> {
        self.1 += 1;
        self.0.read(offset)
    }

    fn write(&mut self, offset: u32, value: u32) {
        self.2 += 1;
        self.0.write(offset, value);
    }
}

/// The source hears of the accesses in the log and of no other, also where the guard's `Drop` goes on after a stop.
#[test]
fn source_hears_of_logged_accesses_alone() {
    let call = Call::Program { addr: 0, data: vec![1; 8] };
    for room in 0..run(&call).log.len() {
        let heard = std::rc::Rc::new(std::cell::RefCell::new(Counting(Prompt::new(0), 0, 0)));
        let ran = driver::run(&call, Box::new(Shared(heard.clone())), room, &mut []);
        let reads = ran.log.chunks(2).filter(|access| access[0] >= recorder::READ).count();
        assert_eq!((heard.borrow().1, heard.borrow().2), (reads, ran.log.len() / 2 - reads));
    }
}

struct Shared(std::rc::Rc<std::cell::RefCell<Counting>>);

impl Source for Shared {
    fn read(&mut self, offset: u32) -> Option<u32> {
        self.0.borrow_mut().read(offset)
    }

    fn write(&mut self, offset: u32, value: u32) {
        self.0.borrow_mut().write(offset, value);
    }
}

/// The driver has no memory: a call after a stop is as one before it.
#[test]
fn calls_after_a_stop_are_the_same() {
    let before = run(&Call::ReadRdidExtended).log;
    for room in [0, 7, 20] {
        assert_eq!(replay(&Call::WriteEnable, &WRITE_ENABLE_REPLIES, room).ended.answer, 24);
        assert_eq!(run(&Call::ReadRdidExtended).log, before);
    }
}
