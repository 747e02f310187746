//! Holds the numbers against calls of the archive on a simulated device, and the header's macros against the numbers.

use super::*;
use crate::device::{Device, Ended};
use crate::ffi::tests::printed_by_c;

/// More accesses than any call here makes.
const AMPLE: usize = 20_000;

const LENGTHS: [usize; 18] = [0, 1, 4, 8, 120, 124, 126, 127, 128, 129, 130, 132, 252, 256, 260, 300, 512, 1024];
const SECTORS: [usize; 6] = [0, 1, 2, 3, 16, 60];
const READS: [usize; 19] = [0, 1, 2, 3, 4, 5, 7, 8, 243, 244, 246, 247, 248, 249, 250, 494, 495, 496, 1000];

/// A call of the archive, whatever it gives beside its answer and counts.
macro_rules! call {
    ($name:ident($($arg:expr),*)) => {
        |replies: &[u32], log: &mut [u32]| {
            let ran = crate::$name($($arg,)* replies, log);
            (ran.answer, ran.used, ran.replies)
        }
    };
}

/// On a prompt device exactly so many accesses are made, and a log with room for one less is too short.
fn takes(accesses: u64, call: impl Fn(&[u32], &mut [u32]) -> Ended) {
    let words = log_words(accesses, 0, 0) as usize;
    let (answer, used, replies) = Device::at_rest(0, 0).run(AMPLE, &call);
    assert_eq!((answer, used), (0, words));
    assert_eq!(Device::at_rest(0, 0).run(words / 2, &call), (0, words, replies));
    if words > 0 {
        let (answer, used, _) = Device::at_rest(0, 0).run(words / 2 - 1, &call);
        assert_eq!((answer, used), (24, words - 2));
    }
}

#[test]
fn a_prompt_device_takes_what_is_said() {
    for length in LENGTHS.into_iter().filter(|n| n % 4 == 0) {
        takes(write_pages_accesses(length as u64), call!(write_pages(0x100, &vec![0xA5; length])));
    }
    for length in (0..=240).step_by(4) {
        takes(program_accesses(length as u64), call!(program(0x100, &vec![0xA5; length])));
    }
    for length in READS {
        takes(read_accesses(length as u64, false), call!(read_page_read(0x100, &mut vec![0; length])));
        for dummy_byte in [false, true] {
            takes(
                read_accesses(length as u64, dummy_byte),
                call!(read_fast_read(0x100, dummy_byte, &mut vec![0; length])),
            );
        }
    }
    for sectors in SECTORS {
        takes(erase_sectors_accesses(sectors as u64), call!(erase_sectors(&list_of(sectors))));
    }
    assert_eq!((program_accesses(0), write_pages_accesses(128)), (37, 165));
}

/// So many sectors, the higher first.
fn list_of(sectors: usize) -> Vec<u32> {
    (0..sectors as u32).rev().map(|sector| sector << 16).collect()
}

#[test]
fn a_refused_save_takes_no_more() {
    for length in LENGTHS.into_iter().filter(|n| n % 4 != 0) {
        let (answer, used, _) = Device::at_rest(0, 0).run(AMPLE, call!(write_pages(0x100, &vec![0xA5; length])));
        assert_eq!(answer, 4);
        assert!(used as u64 <= log_words(write_pages_accesses(length as u64), 0, 0));
    }
}

/// Document 02, U2: a reply for each word sent. So no word is left as chip select rises, however late the words go out.
#[test]
fn every_word_is_out_as_chip_select_rises() {
    for (gap, length) in [0, 1, 7, 40].into_iter().flat_map(|gap| [0, 4, 8, 12, 124, 128, 240].map(|n| (gap, n))) {
        let data: Vec<u8> = (0..length).map(|i| (i * 7 + 3) as u8).collect();
        let mut device = Device::at_rest(gap, 0);
        assert_eq!(device.run(AMPLE, call!(program(0x100, &data))).0, 0);
        let programmed: Vec<u8> = (0x100..).take(length).map(|at| device.byte(at)).collect();
        assert_eq!((programmed, device.waiting.len()), (data, 0), "{length} bytes, a word in {gap} accesses");
    }
}

/// Of a slower device: the numbers are enough, and above what is made by at most one access a look.
#[test]
fn a_slow_device_takes_no_more() {
    for (gap, busy) in [(0, 1), (0, 7), (1, 0), (2, 3), (3, 2), (5, 1), (40, 4)] {
        for (length, hides) in [4, 128, 132, 256, 300].into_iter().flat_map(|n| [(n, false), (n, true)]) {
            let mut device = Device::at_rest(gap, busy);
            device.hides = hides;
            let (answer, used, _) = device.run(AMPLE, call!(write_pages(0x100, &vec![0xA5; length])));
            let shown = u64::from(busy) * (length as u64).div_ceil(CHUNK);
            let words = log_words(write_pages_accesses(length as u64), shown, device.looks);
            assert_eq!(answer, 0);
            assert!(used as u64 <= words && words <= used as u64 + 2 * device.looks, "{used} of {words}");
        }
    }
}

#[test]
fn a_slow_device_takes_no_more_for_a_list() {
    for (gap, busy) in [(0, 1), (1, 0), (2, 3), (5, 1)] {
        for (sectors, hides) in [1, 2, 5].into_iter().flat_map(|n| [(n, false), (n, true)]) {
            let mut device = Device::at_rest(gap, busy);
            device.hides = hides;
            let (answer, used, _) = device.run(AMPLE, call!(erase_sectors(&list_of(sectors))));
            let shown = u64::from(busy) * sectors as u64;
            let words = log_words(erase_sectors_accesses(sectors as u64), shown, device.looks);
            assert_eq!(answer, 0);
            assert!(used as u64 <= words && words <= used as u64 + 2 * device.looks, "{used} of {words}");
        }
    }
}

/// The calls whose number does not go by a length, in the order of the table.
#[test]
fn the_table_is_right() {
    takes(36, call!(erase_sector(0)));
    takes(12, call!(new(false, None, false)));
    takes(36, call!(new(false, Some(0), false)));
    takes(60, call!(new(true, None, false)));
    takes(48, call!(set_write_protection(0)));
    takes(24, call!(write_status(0)));
    takes(24, call!(write_status_and_config_register(0, 0)));
    takes(18, call!(read_rdid_extended()));
    takes(12, call!(write_enable()));
    takes(12, call!(write_disable()));
    takes(12, call!(clear_status()));
    takes(12, call!(read_status_register_1()));
    takes(12, call!(read_configuration_register()));
    takes(12, call!(read_rdid_base()));
    takes(5, call!(enable_io_mode(false)));
    takes(4, call!(enable_linear_addressing(0)));
    takes(3, call!(disable()));
    takes(1, call!(initialize(0, 5, Some(2), false, false)));
    takes(2, call!(initialize(0, 5, None, false, false)));
}

/// The macros of the header give these numbers, also where they need more than 32 bits, and can size an array.
#[test]
fn macros_are_these_functions() {
    let mut lengths: Vec<u64> = LENGTHS.into_iter().chain(READS).map(|n| n as u64).collect();
    lengths.extend([240, 16_777_212, 16_777_215, 0x7FFF_FFFF, 0x8000_0000, 0xFFFF_FFFF, 0x1_0000_0000]);
    let mut text = String::from("static uint32_t room[QSPI_LOG_WORDS(QSPI_WRITE_PAGES_ACCESSES(300), 2, 5)];\n");
    text += "#define SAY(n) printf(\"%llu\\n\", (unsigned long long)(n));\n";
    text += "int main(void) {\nSAY(sizeof room)\n";
    let mut says = vec![4 * log_words(write_pages_accesses(300), 2, 5)];
    for n in lengths {
        text += &format!("SAY(QSPI_PROGRAM_ACCESSES({n})) SAY(QSPI_WRITE_PAGES_ACCESSES({n}))\n");
        text += &format!("SAY(QSPI_ERASE_SECTORS_ACCESSES({n}))\n");
        text += &format!("SAY(QSPI_READ_ACCESSES({n}, false)) SAY(QSPI_READ_ACCESSES({n}, true))\n");
        text += &format!("SAY(QSPI_LOG_WORDS({n}, {n}, {n}))\n");
        says.extend([program_accesses(n), write_pages_accesses(n), erase_sectors_accesses(n)]);
        says.extend([read_accesses(n, false), read_accesses(n, true)]);
        says.push(log_words(n, n, n));
    }
    match printed_by_c("room", &(text + "return 0;\n}\n")) {
        Some(printed) => assert_eq!(printed.lines().map(|l| l.parse().unwrap()).collect::<Vec<u64>>(), says),
        None => eprintln!("skipped: no C compiler"),
    }
}

/// After `initialize` and `enable_io_mode` chip select is low; `new` leaves the controller as a save wants to find it.
#[test]
fn the_controller_rests_after_new() {
    const HIGH: u32 = 0x400;
    const MANUAL: u32 = 0xC000;
    let mut device = Device::at_rest(0, 0);
    device.run(AMPLE, call!(initialize(0, 5, Some(2), false, false)));
    assert_eq!(device.config & (HIGH | MANUAL), 0);
    device.run(AMPLE, call!(enable_io_mode(false)));
    assert_eq!(device.config & (HIGH | MANUAL), MANUAL);
    device.run(AMPLE, call!(new(false, None, false)));
    assert_eq!(device.config & (HIGH | MANUAL), HIGH | MANUAL);
    assert!(device.waiting.is_empty());
}

/// Why the controller has to be reset after 24: the words of the save wait, and the next command goes out behind them.
#[test]
fn after_24_the_next_call_programs_a_byte_outside_the_data() {
    for disables in [false, true] {
        let data = [0xDE, 0xAD, 0xBE, 0xEF, 0x00, 0x11, 0x22, 0x33];
        let mut device = Device::at_rest(0, 0);
        let (answer, used, _) = device.run(19, call!(write_pages(0x100, &data)));
        assert_eq!((answer, used), (24, 38));
        assert_eq!((device.config & 0x400, device.waiting.len()), (0, 3));
        if disables {
            device.run(AMPLE, call!(disable()));
        }
        let (answer, _, _) = device.run(AMPLE, call!(write_enable()));
        assert_eq!(answer, 0);
        let bytes: Vec<u8> = (0x100..0x10A).map(|at| device.byte(at)).collect();
        assert_eq!(bytes, [&data[..], &[0x06, 0xFF]].concat());
    }
}
