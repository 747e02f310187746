//! A save of so many bytes in one of several ways, for counting its instructions: `steps WAY BYTES` prints its accesses.
//! What is counted goes on inside `counted`; the replies are there before.

use qspi_flash::{AS_IT_IS, Budget, Bus, Flash, QspiLowLevel};
use std::hint::black_box;
use std::process::ExitCode;
use verified::qspi_driver::{self, QspiSpansionS25Fl256SIoMode};

const ADDR: u32 = 0x03_0000;
const AMPLE: Budget = Budget { looks: u32::MAX, busy: u32::MAX };

/// A device that keeps the replies that it gives.
struct Recorder {
    model: model::Model,
    replies: Vec<u32>,
}

impl Bus for Recorder {
    fn read(&mut self, offset: u8) -> u32 {
        let word = self.model.read(offset);
        self.replies.push(word);
        word
    }

    fn write(&mut self, offset: u8, value: u32) {
        self.model.write(offset, value);
    }
}

/// Replies in order, and nothing else: what it costs is little.
struct Replies<'a>(std::slice::Iter<'a, u32>);

impl Bus for Replies<'_> {
    fn read(&mut self, _offset: u8) -> u32 {
        self.0.next().copied().unwrap_or(0)
    }

    fn write(&mut self, _offset: u8, value: u32) {
        black_box(value);
    }
}

/// The replies of a prompt device to a save.
fn replies(data: &[u8], log: &mut [u32]) -> Vec<u32> {
    let bus = Recorder { model: model::Model::default(), replies: Vec::new() };
    let Ok(mut flash) = Flash::new(QspiLowLevel::new(bus, log, AMPLE), AS_IT_IS) else { panic!("new is refused") };
    flash.low_level().bus().replies.clear();
    assert_eq!(flash.write_pages(ADDR, data), Ok(data.len()));
    std::mem::take(&mut flash.low_level().bus().replies)
}

type Way = fn(&[u8], &[u32], &mut [u32]) -> usize;

/// The lent driver stepped over the replies.
fn erased(data: &[u8], replies: &[u32], log: &mut [u32]) -> usize {
    let driven = qspi_driver::write_pages(QspiSpansionS25Fl256SIoMode::idle(), ADDR, data, replies, log);
    driven.driver.answer().used
}

/// The access that is due asked for, made on a bus, and the driver stepped.
fn flash(data: &[u8], replies: &[u32], log: &mut [u32]) -> usize {
    let mut flash = Flash::over(QspiLowLevel::new(Replies(replies.iter()), log, AMPLE));
    let ended = flash.write_pages(ADDR, data);
    assert_eq!(ended, Ok(data.len()));
    flash.low_level().log().len()
}

/// The lent driver, as the proved archive has it.
#[cfg(feature = "proved")]
fn proved(data: &[u8], replies: &[u32], log: &mut [u32]) -> usize {
    unsafe extern "C" {
        fn step_cost(
            addr: u32,
            data: *const u8,
            data_len: usize,
            replies: *const u32,
            replies_len: usize,
            log: *mut u32,
            log_len: usize,
        ) -> usize;
    }
    // SAFETY: each address comes with the length of its slice, and the function has what a slice promises.
    unsafe { step_cost(ADDR, data.as_ptr(), data.len(), replies.as_ptr(), replies.len(), log.as_mut_ptr(), log.len()) }
}

#[cfg(not(feature = "proved"))]
fn proved(_: &[u8], _: &[u32], _: &mut [u32]) -> usize {
    panic!("this build has no archive: start firmware/steps/run")
}

const WAYS: &[(&str, Way)] = &[("proved", proved), ("erased", erased), ("flash", flash)];

#[inline(never)]
fn counted(way: Way, data: &[u8], replies: &[u32], log: &mut [u32]) -> usize {
    black_box(way(black_box(data), black_box(replies), black_box(log)))
}

fn main() -> ExitCode {
    let arguments: Vec<String> = std::env::args().skip(1).collect();
    let way = arguments.first().and_then(|name| WAYS.iter().find(|(known, _)| known == name));
    let bytes = arguments.get(1).and_then(|bytes| bytes.parse::<usize>().ok());
    let (Some((_, way)), Some(bytes), 2) = (way, bytes, arguments.len()) else {
        eprintln!("usage: steps proved|erased|flash BYTES");
        return ExitCode::from(2);
    };
    let data: Vec<u8> = (0..bytes).map(|i| (i * 7) as u8).collect();
    let mut log = vec![0; 4 * bytes + 1000];
    let replies = replies(&data, &mut log);
    println!("{}", counted(*way, &data, &replies, &mut log) / 2);
    ExitCode::SUCCESS
}
