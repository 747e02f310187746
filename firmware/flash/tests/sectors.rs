//! A list of sectors on a simulated device: the order, the count, the places of refusals, and where it stops.

mod common;

use common::{Board, CLOCK, LIST, data, flash};
use model::{Failure, Mode, Model, Settings};
use qspi_flash::{AS_IT_IS, Budget, Bus, Call, EraseSectorsError, Error, Flash, QspiLowLevel, log_words};
use verified::qspi_driver::QspiSpansionS25Fl256SIoMode;
use verified::qspi_driver::state::{StartRefused, is_under_way};
use verified::qspi_script::Status;
use verified::qspi_transfer::Due;

const AMPLE: Budget = Budget { looks: 1000, busy: 1000 };
const SIZE: u32 = 0x1_0000;
/// A sector that is in no list here.
const OTHER: u32 = 0x04_0000;

/// Bytes at both ends of each sector of the list, and of another one.
fn load(model: &mut Model) {
    for sector in LIST.into_iter().chain([OTHER]) {
        model.load(sector, &data(8));
        model.load(sector + SIZE - 8, &data(8));
    }
}

/// Whether a sector's ends are erased; else they are as loaded.
fn is_erased(model: &Model, sector: u32) -> bool {
    let ends: Vec<u8> = (0..8).chain(SIZE - 8..SIZE).map(|at| model.byte(sector + at)).collect();
    let is_erased = ends == [0xFF; 16];
    assert!(is_erased || ends == data(8).repeat(2), "{sector:06X} holds {ends:02X?}");
    is_erased
}

fn erased(board: &mut Board<'_>) -> [bool; 4] {
    let model = &board.low_level().bus().bus;
    [LIST[0], LIST[1], LIST[2], OTHER].map(|sector| is_erased(model, sector))
}

/// The addresses of the erase commands in a log, in order.
fn commands(log: &[u32]) -> Vec<u32> {
    let words = log.chunks_exact(2).filter(|access| access[0] == 0x1C).map(|access| access[1]);
    let commands = words.inspect(|word| assert_eq!(word & 0xFF, 0xD8));
    commands.map(|word| word.swap_bytes() & 0xFF_FFFF).collect()
}

fn stopped(error: Error, finished: usize, place: Option<usize>) -> Result<usize, EraseSectorsError> {
    Err(EraseSectorsError { error, finished, place })
}

#[test]
fn a_list_is_erased_in_its_order_and_waits_for_each_sector() {
    let mut log = vec![0; 4000];
    let mut board = flash(Model::new(Settings { looks: 2, busy: 3, ..Settings::default() }), &mut log, AMPLE);
    load(&mut board.low_level().bus().bus);
    assert_eq!(board.erase_sectors(&LIST), Ok(3));
    assert_eq!(commands(board.low_level().log()), LIST);
    assert_eq!(board.low_level().bus().waits, [1, 2, 3].repeat(3));
    assert_eq!(erased(&mut board), [true, true, true, false]);
    assert!(!board.low_level().flash_busy() && !board.low_level().needs_reset());
}

#[test]
fn a_list_has_the_log_of_its_single_erases() {
    let settings = Settings { looks: 1, busy: 2, ..Settings::default() };
    let (mut log, mut single) = (vec![0; 4000], vec![0; 4000]);
    let mut board = flash(Model::new(settings.clone()), &mut log, AMPLE);
    let mut one_by_one = flash(Model::new(settings), &mut single, AMPLE);
    assert_eq!(board.erase_sectors(&LIST), Ok(3));
    let mut expected = Vec::new();
    for sector in LIST {
        one_by_one.erase_sector(sector).unwrap();
        expected.extend(one_by_one.low_level().log());
    }
    assert_eq!(board.low_level().log(), expected);
}

#[test]
fn an_empty_list_is_done_without_an_access() {
    let mut board_log = vec![0; 4000];
    let (bus, _) = flash(Model::default(), &mut board_log, AMPLE).release().release();
    let mut board = Flash::over(QspiLowLevel::new(bus, &mut [], AMPLE));
    assert_eq!(board.erase_sectors(&[]), Ok(0));
    assert!(board.low_level().bus().seen.is_empty() && board.low_level().log().is_empty());
}

/// More than these there are not: the sector of the array's last byte is out of range.
#[test]
fn all_255_sectors_are_erased_by_one_call() {
    let list: Vec<u32> = (0..255).rev().map(|sector| sector * SIZE).collect();
    let budget = Budget { looks: 0, busy: 255 };
    let mut log = vec![0; log_words(Call::EraseSectors(255), budget)];
    let mut board = flash(Model::new(Settings { busy: 1, ..Settings::default() }), &mut log, budget);
    load(&mut board.low_level().bus().bus);
    assert_eq!(board.erase_sectors(&list), Ok(255));
    assert_eq!(board.low_level().log().len(), 2 * (36 + 12) * 255);
    assert_eq!(commands(board.low_level().log()), list);
    assert_eq!(erased(&mut board), [true; 4]);
}

#[test]
fn a_refused_list_makes_no_access_and_names_the_entry() {
    let mut log = vec![0; 2000];
    let mut board = flash(Model::default(), &mut log, AMPLE);
    let all: Vec<u32> = (0..256).map(|sector| sector * SIZE).collect();
    let (range, alignment, repeated) = (Error::OutOfRange, Error::Alignment, Error::RepeatedSector);
    // 33 comes first, then the first entry that meets 1 or 2, then 32.
    assert_eq!(board.erase_sectors(&[1; 257]), stopped(Error::ListTooLong, 0, None));
    for (list, error, place) in [
        (&all[..], range, 255),
        (&[&all[..255], &[0]].concat(), repeated, 255),
        (&[0, OTHER + 4, 0xFF_0000], alignment, 1),
        (&[0, 0xFF_0000, OTHER + 4], range, 1),
        (&[0, 0xFF_0001], range, 1),
        (&[0xFFFF_0000, 0], range, 0),
        (&[0, 0, OTHER, 1], alignment, 3),
        (&[OTHER, 0, SIZE, 0, OTHER], repeated, 3),
    ] {
        assert_eq!(board.erase_sectors(list), stopped(error, 0, Some(place)));
    }
    assert!(board.low_level().bus().seen.is_empty() && board.low_level().log().is_empty());
}

#[test]
fn the_place_of_a_refusal_is_not_told_by_a_later_call() {
    let mut log = vec![0; 2000];
    let settings = Settings { failure: Some(ERASE_FAILS), ..Settings::default() };
    let mut board = flash(Model::new(settings), &mut log, AMPLE);
    assert_eq!(board.erase_sectors(&[0, 0, 0xFF_0000]), stopped(Error::OutOfRange, 0, Some(2)));
    assert_eq!(board.erase_sectors(&LIST), stopped(Error::EraseErrorBitSet, 1, None));
}

/// The second of the works fails.
const ERASE_FAILS: Failure = Failure { work: 1, after: 1, bits: 0x20, stays_busy: false };

#[test]
fn an_erase_that_fails_ends_the_list_and_is_not_counted() {
    for work in 0..3 {
        let mut log = vec![0; 4000];
        let failure = Some(Failure { work, stays_busy: true, ..ERASE_FAILS });
        let mut board = flash(Model::new(Settings { failure, ..Settings::default() }), &mut log, AMPLE);
        load(&mut board.low_level().bus().bus);
        let finished = work as usize;
        assert_eq!(board.erase_sectors(&LIST), stopped(Error::EraseErrorBitSet, finished, None));
        assert_eq!(commands(board.low_level().log()), LIST[..=finished]);
        assert_eq!(erased(&mut board), [finished > 0, finished > 1, false, false]);
        assert!(!board.low_level().flash_busy() && !board.low_level().needs_reset());
        // The status is cleared and the rest can be erased.
        assert_eq!(board.erase_sectors(&LIST[finished..]), Ok(3 - finished));
        assert_eq!(erased(&mut board), [true, true, true, false]);
    }
}

/// The error bit of a program is not an erase's.
#[test]
fn a_programming_error_does_not_end_a_list() {
    let mut log = vec![0; 4000];
    let failure = Some(Failure { bits: 0x40, ..ERASE_FAILS });
    let mut board = flash(Model::new(Settings { failure, ..Settings::default() }), &mut log, AMPLE);
    assert_eq!(board.erase_sectors(&LIST), Ok(3));
}

/// Each status transfer that shows a sector at work counts for the whole list.
#[test]
fn a_budget_that_ends_in_the_second_sector_leaves_the_flash_at_work() {
    let mut log = vec![0; 4000];
    let mut board = flash(Model::new(Settings { busy: 3, ..Settings::default() }), &mut log, AMPLE);
    load(&mut board.low_level().bus().bus);
    board.low_level().set_budget(Budget { looks: 0, busy: 4 });
    assert_eq!(board.erase_sectors(&LIST), stopped(Error::RepliesEnded, 1, None));
    assert_eq!(board.low_level().bus().waits, [1, 2, 3, 1]);
    assert!(board.low_level().flash_busy() && !board.low_level().needs_reset());
    board.low_level().bus().clear();
    assert_eq!(board.erase_sectors(&LIST[1..]), stopped(Error::FlashBusy, 0, None));
    assert_eq!(board.erase_sectors(&[1]), stopped(Error::FlashBusy, 0, None));
    assert!(board.low_level().bus().seen.is_empty());
    assert_eq!(board.wait_until_idle(), Ok(()));
    board.low_level().set_budget(Budget { looks: 0, busy: 6 });
    assert_eq!(board.erase_sectors(&LIST[1..]), Ok(2));
    assert_eq!(erased(&mut board), [true, true, true, false]);
}

/// How a list ends on a slow device, within a budget, and its accesses.
fn listed(settings: &Settings, budget: Budget) -> (Result<usize, Error>, usize) {
    let mut log = vec![0; 20_000];
    let mut board = flash(Model::new(settings.clone()), &mut log, AMPLE);
    board.low_level().set_budget(budget);
    let ended = board.erase_sectors(&LIST).map_err(|stopped| stopped.error);
    (ended, board.low_level().log().len() / 2)
}

#[test]
fn the_budget_of_a_list_is_what_it_needs_and_not_one_less() {
    let prompt = Settings { busy: 3, ..Settings::default() };
    let slow = Settings { looks: 2, ..prompt.clone() };
    // Each look in vain is one access more.
    let looks = (listed(&slow, AMPLE).1 - listed(&prompt, AMPLE).1) as u32;
    assert!(looks > 20);
    for (budget, ended) in [
        (Budget { looks, busy: 9 }, Ok(3)),
        (Budget { looks: looks - 1, busy: 9 }, Err(Error::RepliesEnded)),
        (Budget { looks, busy: 8 }, Err(Error::RepliesEnded)),
    ] {
        assert_eq!(listed(&slow, budget).0, ended, "{budget:?}");
    }
}

#[test]
fn after_an_open_transfer_a_list_is_refused_and_counts_nothing() {
    let mut log = vec![0; 4000];
    let mut board = flash(Model::default(), &mut log, Budget { looks: 0, busy: 0 });
    assert_eq!(board.erase_sectors(&LIST), Ok(3));
    board.low_level().bus().turn(1, |_| 0);
    assert_eq!(board.erase_sectors(&LIST), stopped(Error::RepliesEnded, 0, None));
    assert!(board.low_level().needs_reset());
    board.low_level().bus().clear();
    assert_eq!(board.erase_sectors(&LIST), stopped(Error::ResetNeeded, 0, None));
    assert!(board.low_level().bus().seen.is_empty());
    let mut controller = board.release();
    controller.bus().turned = None;
    controller.bus().bus = Model::default();
    controller.initialize(CLOCK, false, false).unwrap();
    controller.enable_io_mode(false).unwrap();
    let Ok(mut board) = Flash::new(controller, AS_IT_IS) else { panic!("new is refused") };
    assert_eq!(board.erase_sectors(&LIST), Ok(3));
}

/// The driver stepped by hand on a model, its list changed behind its back after the start.
fn stepped(list: &mut [u32], log: &mut [u32]) -> (Result<Status, StartRefused>, usize, usize) {
    let (mut driver, mut model) = (QspiSpansionS25Fl256SIoMode::idle(), Model::default());
    let mut answer = driver.erase_sectors(list, log.len());
    list.fill(OTHER);
    while is_under_way(answer) {
        let reply = match driver.due(&[]) {
            Ok(Some(Due::Read(offset))) => Some(Bus::read(&mut model, offset)),
            Ok(Some(Due::Write(offset, value))) => {
                Bus::write(&mut model, offset, value);
                None
            }
            Ok(None) | Err(_) => panic!("no access is due"),
        };
        answer = driver.step(&[], &mut [], log, reply);
    }
    (answer, driver.answer().counted, driver.answer().used)
}

#[test]
fn a_list_that_is_changed_after_the_start_is_erased_as_it_was() {
    let (mut list, mut log, mut board_log) = (LIST, vec![0; 1000], vec![0; 1000]);
    let (answer, finished, used) = stepped(&mut list, &mut log);
    assert_eq!((answer, finished, list), (Ok(Status::Done), 3, [OTHER; 3]));
    assert_eq!(commands(&log[..used]), LIST);
    let mut board = flash(Model::default(), &mut board_log, AMPLE);
    assert_eq!(board.erase_sectors(&LIST), Ok(3));
    assert_eq!(board.low_level().log(), &log[..used]);
}

/// A log with room for so many accesses ends the list there, as a cut does.
#[test]
fn a_list_that_is_cut_after_any_access_leaves_what_its_count_says() {
    let (mut accesses, mut in_doubt) = (0, 0);
    loop {
        let mut board_log = vec![0; 4000];
        let settings = Settings { looks: 1, busy: 2, ..Settings::default() };
        let (mut bus, _) = flash(Model::new(settings), &mut board_log, AMPLE).release().release();
        load(&mut bus.bus);
        let mut log = vec![0; 2 * accesses];
        let mut board = Flash::over(QspiLowLevel::new(bus, &mut log, AMPLE));
        let ended = board.erase_sectors(&LIST);
        let finished = ended.unwrap_or_else(|stopped| stopped.finished);
        let found = erased(&mut board);
        for (place, erased) in found.into_iter().enumerate().filter(|(place, _)| *place != finished) {
            assert_eq!(erased, place < finished, "entry {place} after {accesses} accesses");
        }
        if let Some(doubt) = board.low_level().bus().bus.in_doubt() {
            assert_eq!(doubt, LIST[finished]..LIST[finished] + SIZE, "after {accesses} accesses");
            in_doubt += 1;
        }
        if ended.is_ok() {
            assert_eq!((finished, found[3]), (3, false));
            break;
        }
        assert_eq!(ended, stopped(Error::LogFull, finished, None));
        accesses += 1;
    }
    assert!(accesses > 180 && in_doubt > 60, "{accesses} accesses, {in_doubt} with a sector in doubt");
}

#[test]
fn a_flash_that_never_ends_is_not_waited_for_without_end() {
    let budget = Budget { looks: 0, busy: 5 };
    let mut log = vec![0; log_words(Call::EraseSectors(3), budget)];
    let settings = Settings { mode: Mode::BusyForEver, ..Settings::default() };
    let mut board = flash(Model::new(settings), &mut log, budget);
    assert_eq!(board.erase_sectors(&LIST), stopped(Error::RepliesEnded, 0, None));
    assert_eq!(board.low_level().bus().waits, [1, 2, 3, 4, 5]);
}

#[test]
fn errors_say_how_far_the_list_came_or_which_entry_it_is_refused_for() {
    let refused = EraseSectorsError { error: Error::RepeatedSector, finished: 0, place: Some(2) };
    assert_eq!(refused.to_string(), "the list names a sector twice (32): entry 2 of the list");
    let failed = EraseSectorsError { error: Error::EraseErrorBitSet, finished: 1, place: None };
    assert_eq!(failed.to_string(), "the flash reported a failed erase (21); finished sectors: 1");
    assert_eq!(core::error::Error::source(&failed).unwrap().to_string(), failed.error.to_string());
}
