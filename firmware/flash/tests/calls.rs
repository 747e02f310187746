//! The calls on a simulated device, sound, slow, failing or cut off.

mod common;

use common::{Board, CLOCK, data, flash, rows};
use core::cell::Cell;
use core::ops::ControlFlow;
use model::{Failure, Mode, Model, Settings};
use qspi_flash::{AS_IT_IS, Budget, Bus, Call, Error, Flash, QspiLowLevel, Waiting, WritePagesError, log_words};
use verified::qspi_operation;
use verified::qspi_script::Status;
use verified::zedboard_bsp::qspi_spansion::device_id::Density;
use verified::zynq7000_hal::qspi::ClockConfig;

const AMPLE: Budget = Budget { looks: 1000, busy: 1000 };
const NOTHING_TO_SPARE: Budget = Budget { looks: 0, busy: 0 };
const SECTOR: u32 = 0x03_0000;

fn slow() -> Settings {
    Settings { looks: 2, busy: 3, ..Settings::default() }
}

#[test]
fn every_call_is_done_on_a_prompt_device_with_nothing_to_spare() {
    for row in rows() {
        let mut log = vec![0; 4000];
        let mut board = flash(Model::default(), &mut log, NOTHING_TO_SPARE);
        board.low_level().bus().clear();
        let (mut controller, ended) = (row.make)(board);
        assert_eq!((ended, controller.needs_reset()), (Ok(()), false), "{:?}", row.call);
        assert_eq!(controller.log().to_vec(), controller.bus().seen, "{:?}", row.call);
        assert!(controller.log().len() <= log_words(row.call, NOTHING_TO_SPARE), "{:?}", row.call);
    }
}

/// The replies in a list of accesses.
fn replies(seen: &[u32]) -> Vec<u32> {
    seen.chunks_exact(2).filter(|access| access[0] >= 0x100).map(|access| access[1]).collect()
}

#[test]
fn each_method_makes_the_call_of_its_name() {
    for (row, status) in rows().flat_map(|row| [(row, 0), (row, 0x9C)]) {
        let mut log = vec![0; 20_000];
        let settings = Settings { status, config_register: 0x40, ..slow() };
        let (mut controller, ended) = (row.make)(flash(Model::new(settings), &mut log, AMPLE));
        let seen = &controller.bus().seen;
        let (mut buffer, mut expected) = (vec![0; row.buffer], vec![0; 20_000]);
        let op = (row.op)(expected.len());
        let ran = qspi_operation::run(op, &(row.data)(), &mut buffer, &mut expected, &replies(seen));
        assert_eq!((ended, ran.answer), (Ok(()), Status::Done), "{:?}", row.call);
        assert_eq!(expected[..ran.op.used], *seen, "{:?}", row.call);
    }
}

/// Whether the last accesses left chip select low or the controller enabled.
fn is_open(log: &[u32]) -> bool {
    let last = |register| log.chunks_exact(2).rev().find(|access| access[0] == register).map(|access| access[1]);
    last(0x00).is_some_and(|config| config & 1 << 10 == 0) || last(0x14) == Some(1)
}

#[test]
fn a_log_that_ends_anywhere_says_whether_the_controller_rests() {
    for (row, looks) in rows().flat_map(|row| [(row, 0), (row, 2)]) {
        for room in 0.. {
            let mut long = vec![0; 4000];
            let settings = Settings { looks, busy: 1, ..Settings::default() };
            let (bus, _) = flash(Model::new(settings), &mut long, AMPLE).release().release();
            let mut log = vec![0; room];
            let (mut controller, ended) = (row.make)(Flash::over(QspiLowLevel::new(bus, &mut log, AMPLE)));
            let needs_reset = controller.needs_reset();
            if ended.is_ok() {
                assert!(!needs_reset, "{:?}", row.call);
                break;
            }
            assert_eq!(ended, Err(Error::LogFull), "{:?}", row.call);
            assert_eq!(needs_reset, !row.transfers() || is_open(controller.log()), "{:?}, {room} words", row.call);
            assert!(needs_reset || controller.bus().bus.is_at_rest(), "{:?}, {room} words", row.call);
        }
    }
}

/// Accesses of a call that the flash reports no error of: the function's but for those of the error's end.
#[test]
fn the_length_of_a_log_is_what_a_prompt_device_takes() {
    for row in rows() {
        let mut log = vec![0; 4000];
        let (controller, _) =
            (row.make)(flash(Model::new(Settings { status: 0x1C, ..Settings::default() }), &mut log, AMPLE));
        let error = match row.call {
            Call::EraseSector | Call::EraseSectors(_) | Call::Program(_) | Call::WritePages(_) => 48,
            _ => 0,
        };
        assert_eq!(controller.log().len() + error, log_words(row.call, NOTHING_TO_SPARE), "{:?}", row.call);
    }
}

/// The same of a program and a save, for every length that they take and lengths of a few chunks.
#[test]
fn the_length_of_a_log_is_what_a_program_and_a_save_of_any_length_take() {
    for length in (0..=388).step_by(4) {
        let mut log = vec![0; 4000];
        let mut board = flash(Model::default(), &mut log, NOTHING_TO_SPARE);
        assert_eq!(board.write_pages(SECTOR, &data(length)), Ok(length));
        assert_eq!(board.low_level().log().len() + 48, log_words(Call::WritePages(length), NOTHING_TO_SPARE));
        if length <= 240 {
            assert_eq!(board.program(SECTOR + 0x200, &data(length)), Ok(()));
            assert_eq!(board.low_level().log().len() + 48, log_words(Call::Program(length), NOTHING_TO_SPARE));
        }
    }
}

/// Document 02, U2: a reply for each word sent. So no word is left as chip select rises, however late the words go out.
#[test]
fn every_word_is_out_as_chip_select_rises() {
    for looks in [0, 1, 5, 40] {
        for length in (0..=240).step_by(4) {
            let mut log = vec![0; 40_000];
            let settings = Settings { looks, ..Settings::default() };
            let mut board = flash(Model::new(settings), &mut log, Budget { looks: 10_000, busy: 0 });
            assert_eq!(board.program(SECTOR, &data(length)), Ok(()));
            let low_level = board.low_level();
            let words = |register: u32| low_level.log().chunks_exact(2).filter(|access| access[0] == register).count();
            // Write enable and status read send a word each, to other registers.
            assert_eq!((words(0x1C), words(0x120)), (1 + length / 4, 3 + length / 4));
            let model = &board.low_level().bus().bus;
            let programmed: Vec<u8> = (0..length as u32).map(|at| model.byte(SECTOR + at)).collect();
            assert_eq!((programmed, model.is_at_rest()), (data(length), true), "{length} bytes, {looks} looks");
        }
    }
}

#[test]
fn ids_and_registers() {
    let mut log = vec![0; 400];
    let settings = Settings { status: 0x1C, config_register: 0xC2, ..Settings::default() };
    let mut board = flash(Model::new(settings), &mut log, AMPLE);
    let base = board.read_rdid_base().unwrap();
    assert_eq!((base.manufacturer_id(), base.device_id_raw()), (0x01, 0x0219));
    assert_eq!(base.density(), Ok(Density::_256Mb));
    let extended = board.read_rdid_extended().unwrap();
    assert_eq!((extended.base_id(), extended.family_id(), extended.model_number()), (base, 0x80, *b"R0"));
    assert_eq!(board.read_status_register_1().unwrap().block_protection(), 7);
    assert_eq!(board.read_configuration_register().unwrap().0, 0xC2);
    board.set_write_protection(2).unwrap();
    board.wait_until_idle().unwrap();
    assert_eq!(board.read_status_register_1().unwrap().block_protection(), 2);
    assert_eq!(board.set_write_protection(8), Err(Error::FieldTooWide));
}

fn read_back(board: &mut Board<'_>, addr: u32, length: usize) -> Vec<u8> {
    let (mut plain, mut fast) = (vec![0; length], vec![0; length]);
    board.read_page_read(addr, &mut plain).unwrap();
    board.read_fast_read(addr, &mut fast, true).unwrap();
    assert_eq!(plain, fast);
    plain
}

#[test]
fn a_save_on_a_slow_device_waits_between_status_transfers() {
    let mut log = vec![0; 20_000];
    let mut board = flash(Model::new(slow()), &mut log, AMPLE);
    board.low_level().bus().bus.load(SECTOR, &[0; 1000]);
    board.erase_sector(SECTOR).unwrap();
    assert_eq!(board.low_level().bus().waits, [1, 2, 3]);
    board.low_level().bus().clear();
    assert_eq!(board.write_pages(SECTOR + 0x100, &data(1000)), Ok(1000));
    assert_eq!(board.low_level().bus().waits, [1, 2, 3].repeat(8));
    assert_eq!(read_back(&mut board, SECTOR + 0x100, 1000), data(1000));
    assert_eq!(read_back(&mut board, SECTOR, 0x100), [0xFF; 0x100]);
}

/// How a save of two chunks ends on a device, within a budget, and its accesses.
fn saved(settings: &Settings, budget: Budget) -> (Result<usize, Error>, usize) {
    let mut log = vec![0; 20_000];
    let mut board = flash(Model::new(settings.clone()), &mut log, AMPLE);
    board.low_level().set_budget(budget);
    let ended = board.write_pages(SECTOR, &data(256)).map_err(|stopped| stopped.error);
    (ended, board.low_level().log().len() / 2)
}

#[test]
fn the_budget_of_a_save_is_what_it_needs_and_not_one_less() {
    let prompt = Settings { busy: 3, ..Settings::default() };
    // Each look in vain is one access more.
    let looks = (saved(&slow(), AMPLE).1 - saved(&prompt, AMPLE).1) as u32;
    assert!(looks > 100);
    for (budget, ended) in [
        (Budget { looks, busy: 6 }, Ok(256)),
        (Budget { looks: looks - 1, busy: 6 }, Err(Error::RepliesEnded)),
        (Budget { looks, busy: 5 }, Err(Error::RepliesEnded)),
    ] {
        assert_eq!(saved(&slow(), budget).0, ended, "{budget:?}");
    }
}

#[test]
fn refusals_make_no_access_and_count_what_is_finished() {
    let mut log = vec![0; 2000];
    let mut board = flash(Model::default(), &mut log, AMPLE);
    let stopped = |error, programmed| Err(WritePagesError { error, programmed });
    assert_eq!(board.erase_sector(0xFF_0000), Err(Error::OutOfRange));
    assert_eq!(board.erase_sector(0xFFFF_0000), Err(Error::OutOfRange));
    assert_eq!(board.erase_sector(SECTOR + 4), Err(Error::Alignment));
    assert_eq!(board.program(0, &data(241)), Err(Error::DataTooLarge));
    assert_eq!(board.program(0, &data(6)), Err(Error::NotAligned));
    assert_eq!(board.program(0xF0, &data(20)), Err(Error::CrossesPageBoundary));
    assert_eq!(board.write_pages(0xFF_FFFC, &data(4)), stopped(Error::OutOfRange, 0));
    assert_eq!(board.read_page_read(u32::MAX, &mut [0; 2]), Err(Error::AddressSpan));
    assert!(board.low_level().bus().seen.is_empty() && board.low_level().log().is_empty());
    assert_eq!(board.write_pages(0xC0, &data(256)), stopped(Error::CrossesPageBoundary, 0));
    assert_eq!(board.write_pages(0x40, &data(256)), stopped(Error::CrossesPageBoundary, 128));
    assert_eq!(board.write_pages(0, &data(130)), stopped(Error::NotAligned, 128));
    assert_eq!(board.write_pages(0xFF_FF80, &data(124)), Ok(124));
}

#[test]
fn a_flash_that_reports_an_error_is_cleared_and_not_counted() {
    let failing = |work, bits| {
        let failure = Some(Failure { work, after: 1, bits, stays_busy: false });
        Model::new(Settings { failure, ..Settings::default() })
    };
    for chunk in 0..3 {
        let mut log = vec![0; 4000];
        let mut board = flash(failing(chunk, 0x40), &mut log, AMPLE);
        let stopped = board.write_pages(SECTOR, &data(384)).unwrap_err();
        assert_eq!(stopped, WritePagesError { error: Error::ProgrammingErrorBitSet, programmed: 128 * chunk as usize });
        assert!(!board.low_level().needs_reset());
        assert!(!board.low_level().flash_busy());
        assert_eq!(board.read_status_register_1().map(|status| status.0), Ok(0));
    }
    let mut log = vec![0; 4000];
    let mut board = flash(failing(0, 0x20), &mut log, AMPLE);
    assert_eq!(board.erase_sector(SECTOR), Err(Error::EraseErrorBitSet));
    assert_eq!(board.erase_sector(SECTOR), Ok(()));
}

#[test]
fn a_flash_that_stays_at_work_leaves_the_controller_at_rest() {
    let budget = Budget { looks: 10, busy: 4 };
    let mut log = vec![0; log_words(Call::WritePages(256), budget)];
    let settings = Settings { mode: Mode::BusyForEver, ..Settings::default() };
    let mut board = flash(Model::new(settings), &mut log, budget);
    let stopped = board.write_pages(SECTOR, &data(256)).unwrap_err();
    assert_eq!(stopped, WritePagesError { error: Error::RepliesEnded, programmed: 0 });
    assert_eq!(board.low_level().bus().waits, [1, 2, 3, 4]);
    assert!(!board.low_level().needs_reset() && board.low_level().bus().bus.is_at_rest());
    assert!(board.read_status_register_1().unwrap().write_in_progress());
}

#[test]
fn a_flash_that_may_be_at_work_is_not_called_before_it_is_idle() {
    let mut log = vec![0; 4000];
    let mut board = flash(Model::new(Settings { busy: 10, ..Settings::default() }), &mut log, AMPLE);
    board.low_level().set_budget(Budget { looks: 10, busy: 4 });
    assert_eq!(board.erase_sector(SECTOR), Err(Error::RepliesEnded));
    assert!(board.low_level().flash_busy() && !board.low_level().needs_reset());
    board.low_level().bus().clear();
    for row in rows().filter(|row| row.transfers()) {
        let obeyed = matches!(row.call, Call::ClearStatus | Call::ReadStatusRegister1);
        if !obeyed {
            let (controller, ended) = (row.make)(board);
            assert_eq!(ended, Err(Error::FlashBusy), "{:?}", row.call);
            board = Flash::over(controller);
        }
    }
    assert_eq!(board.write_pages(SECTOR, &data(4)), Err(WritePagesError { error: Error::FlashBusy, programmed: 0 }));
    assert!(board.low_level().bus().seen.is_empty());
    // A reset of the controller does not stop the flash, and `new` that asks for nothing sends what it obeys.
    let mut controller = board.release();
    controller.initialize(CLOCK, false, false).unwrap();
    controller.enable_io_mode(false).unwrap();
    let Ok(mut board) = Flash::new(controller, AS_IT_IS) else { panic!("new is refused") };
    assert!(board.clear_status().is_ok() && board.low_level().flash_busy());
    assert!(board.read_status_register_1().unwrap().write_in_progress() && board.low_level().flash_busy());
    board.low_level().bus().clear();
    assert_eq!(board.wait_until_idle(), Ok(()));
    assert_eq!(board.low_level().bus().waits, [1, 2, 3, 4]);
    assert!(!board.low_level().flash_busy());
    board.low_level().set_budget(AMPLE);
    assert_eq!(board.write_pages(SECTOR, &data(128)), Ok(128));
    assert_eq!(read_back(&mut board, SECTOR, 128), data(128));
}

#[test]
fn a_call_that_writes_registers_leaves_the_flash_at_work() {
    for row in rows() {
        let mut log = vec![0; 4000];
        let settings = Settings { status: 0x1C, ..Settings::default() };
        let (controller, ended) = (row.make)(flash(Model::new(settings), &mut log, AMPLE));
        let writes = [Call::New, Call::SetWriteProtection, Call::WriteStatus, Call::WriteStatusAndConfigRegister];
        assert_eq!((ended, controller.flash_busy()), (Ok(()), writes.contains(&row.call)), "{:?}", row.call);
        assert_eq!(Flash::over(controller).wait_until_idle(), Ok(()));
    }
}

#[test]
fn a_flash_that_stays_at_work_is_not_waited_for_without_end() {
    for (budget, waits) in [(0, 0), (5, 5)] {
        let mut log = vec![0; 4000];
        let settings = Settings { mode: Mode::BusyForEver, ..Settings::default() };
        let mut board = flash(Model::new(settings), &mut log, Budget { looks: 10, busy: budget });
        assert_eq!(board.erase_sector(SECTOR), Err(Error::RepliesEnded));
        board.low_level().bus().clear();
        assert_eq!(board.wait_until_idle(), Err(Error::FlashBusy));
        assert_eq!(board.low_level().bus().waits.len(), waits);
        board.low_level().bus().patience = 2;
        board.low_level().bus().clear();
        assert_eq!(board.wait_until_idle(), Err(Error::FlashBusy));
        assert_eq!(board.low_level().bus().waits.len(), waits.min(2));
    }
}

/// What the log shows of the flash: work is begun by the words of a program or an erase, and ended by a status that is not busy.
fn may_be_at_work(log: &[u32]) -> bool {
    let (mut command, mut reply, mut work) = (None, 0, false);
    for access in log.chunks_exact(2) {
        match (access[0], access[1]) {
            (0x14, 1) => command = None,
            (0x1C | 0x80 | 0x84 | 0x88, word) => {
                let command = *command.get_or_insert(word & 0xFF);
                work |= [0x01, 0x02, 0xD8].contains(&command);
            }
            (0x120, word) => reply = word,
            // The last access of a status transfer: bit 0 of the top byte is busy.
            (0x14, _) if command == Some(0x05) => work &= reply >> 24 & 1 == 1,
            _ => {}
        }
    }
    work
}

#[test]
fn a_log_that_ends_anywhere_says_whether_the_flash_may_be_at_work() {
    let failure = Some(Failure { work: 0, after: 1, bits: 0x60, stays_busy: true });
    for (row, failure) in rows().flat_map(|row| [(row, None), (row, failure)]).filter(|(row, _)| row.transfers()) {
        for room in (0..).step_by(2) {
            let mut long = vec![0; 4000];
            let settings = Settings { busy: 1, failure, ..Settings::default() };
            let (bus, _) = flash(Model::new(settings), &mut long, AMPLE).release().release();
            let mut log = vec![0; room];
            let (mut controller, ended) = (row.make)(Flash::over(QspiLowLevel::new(bus, &mut log, AMPLE)));
            let (busy, shown) = (controller.flash_busy(), may_be_at_work(controller.log()));
            // It is taken to be so from the first access of the transfer on, some accesses before its first word.
            assert!(busy || !shown || failure.is_some(), "{:?}, {room} words", row.call);
            assert!(busy || controller.bus().bus.status() & 1 == 0, "{:?}, {room} words", row.call);
            if ended != Err(Error::LogFull) {
                assert!(!busy || ended.is_ok() && shown, "{:?}", row.call);
                break;
            }
            if controller.log().ends_with(&[0x14, 0]) && failure.is_none() {
                assert_eq!(busy, shown, "{:?}, {room} words", row.call);
            }
        }
    }
}

#[test]
fn a_save_that_a_flash_at_work_does_not_get_counts_nothing() {
    let mut log = vec![0; 4000];
    let mut board =
        flash(Model::new(Settings { busy: 3, ..Settings::default() }), &mut log, Budget { looks: 0, busy: 4 });
    let stopped = |error, programmed| Err(WritePagesError { error, programmed });
    assert_eq!(board.write_pages(SECTOR, &data(384)), stopped(Error::RepliesEnded, 128));
    assert_eq!(board.write_pages(SECTOR, &data(384)), stopped(Error::FlashBusy, 0));
}

/// A flash that is at work for half a second after an erase, for a millisecond after a program.
struct Timed<'t> {
    model: Model,
    now: &'t Cell<u32>,
    until: u32,
    /// The first word of a transfer, once it is sent.
    command: Option<u8>,
}

impl Bus for Timed<'_> {
    fn read(&mut self, offset: u8) -> u32 {
        let word = self.model.read(offset);
        let is_status = offset == 0x20 && self.command == Some(0x05);
        if is_status && self.now.get() < self.until { word | 0x0100_0000 } else { word }
    }

    fn write(&mut self, offset: u8, value: u32) {
        match offset {
            0x14 => self.command = None,
            0x1C | 0x80 | 0x84 => self.command = self.command.or(Some(value as u8)),
            0x00 if value & 1 << 10 != 0 => match self.command {
                Some(0xD8) => self.until = self.now.get() + 500_000,
                Some(0x02) => self.until = self.now.get() + 1000,
                _ => {}
            },
            _ => {}
        }
        self.model.write(offset, value);
    }
}

/// The numbers of README.md.
#[test]
fn waits_that_double_cover_an_erase_of_half_a_second_and_a_save() {
    let budget = Budget { looks: 4096, busy: 64 };
    let mut log = vec![0; log_words(Call::WritePages(1024), budget)];
    let now = Cell::new(0);
    let wait = |busy: u32| {
        now.set(now.get() + (100 << busy.min(12)));
        ControlFlow::Continue(())
    };
    let bus = Timed { model: Model::default(), now: &now, until: 0, command: None };
    let controller = QspiLowLevel::new(Waiting { bus, wait }, &mut log, budget);
    let Ok(mut board) = Flash::new(controller, AS_IT_IS) else { panic!("new is refused") };
    assert_eq!(board.erase_sector(SECTOR), Ok(()));
    // Write enable, erase, twelve status transfers that show it at work and one that does not.
    assert_eq!((board.low_level().log().len(), now.get()), (2 * 12 * 15, 819_000));
    assert_eq!(board.write_pages(SECTOR, &data(1024)), Ok(1024));
    assert!(now.get() < 819_000 + 8 * 2000);
}

#[test]
fn the_hook_is_called_once_a_status_transfer_is_closed_and_another_one_follows() {
    for room in 0..2 * 12 * 6 {
        let mut long = vec![0; 4000];
        let settings = Settings { mode: Mode::BusyForEver, ..Settings::default() };
        let (bus, _) = flash(Model::new(settings), &mut long, AMPLE).release().release();
        let mut log = vec![0; room];
        let mut board = Flash::over(QspiLowLevel::new(bus, &mut log, AMPLE));
        assert_eq!(board.erase_sector(SECTOR), Err(Error::LogFull));
        // Write enable and erase come before.
        assert_eq!(board.low_level().bus().waits.len(), (room / 24).saturating_sub(2), "{room} words");
    }
}

#[test]
fn the_hook_can_end_a_call() {
    let mut log = vec![0; 4000];
    let settings = Settings { mode: Mode::BusyForEver, ..Settings::default() };
    let wait = |busy| if busy < 7 { ControlFlow::Continue(()) } else { ControlFlow::Break(()) };
    let controller = QspiLowLevel::new(Waiting { bus: Model::new(settings), wait }, &mut log, AMPLE);
    let Ok(mut board) = Flash::new(controller, AS_IT_IS) else { panic!("new is refused") };
    assert_eq!(board.erase_sector(SECTOR), Err(Error::RepliesEnded));
    // Write enable, erase and seven status transfers.
    assert_eq!(board.low_level().log().len(), 2 * 12 * 9);
}

#[test]
fn after_an_open_transfer_nothing_goes_out_before_initialize() {
    let mut log = vec![0; 4000];
    let mut board = flash(Model::default(), &mut log, NOTHING_TO_SPARE);
    board.low_level().bus().turned = Some(|_| 0);
    assert_eq!(board.write_enable(), Err(Error::RepliesEnded));
    assert!(board.low_level().needs_reset());
    let bus = board.low_level().bus();
    bus.turned = None;
    bus.bus = Model::default();
    bus.clear();
    for row in rows().filter(|row| row.call != Call::Initialize) {
        let (controller, ended) = (row.make)(board);
        assert_eq!(ended, Err(Error::ResetNeeded), "{:?}", row.call);
        board = Flash::over(controller);
    }
    assert_eq!(board.write_pages(SECTOR, &data(4)).unwrap_err().programmed, 0);
    assert!(board.low_level().bus().seen.is_empty());
    let mut controller = board.release();
    // Refused, it makes no access and unlocks nothing.
    let too_wide = ClockConfig { ref_clk_div: 64, ..CLOCK };
    assert_eq!(controller.initialize(too_wide, true, false), Err(Error::FieldTooWide));
    assert!(controller.needs_reset() && controller.bus().seen.is_empty());
    // Divisor 5 of the I/O PLL.
    assert_eq!(controller.initialize(CLOCK, true, false), Ok(0x501));
    assert!(!controller.needs_reset());
    controller.enable_io_mode(false).unwrap();
    let Ok(mut board) = Flash::new(controller, AS_IT_IS) else { panic!("new is refused") };
    assert_eq!(board.write_pages(SECTOR, &data(4)), Ok(4));
}

/// A bus that panics: the operation at hand is left under way, and the next call is refused.
#[test]
fn after_a_bus_that_panicked_nothing_goes_out() {
    struct Panicking(Model, u32);
    impl Bus for Panicking {
        fn read(&mut self, offset: u8) -> u32 {
            self.0.read(offset)
        }
        fn write(&mut self, offset: u8, value: u32) {
            self.1 = self.1.checked_sub(1).expect("a panic, as asked for");
            self.0.write(offset, value);
        }
    }
    let mut log = vec![0; 4000];
    let controller = QspiLowLevel::new(Panicking(Model::default(), 80), &mut log, AMPLE);
    let Ok(mut board) = Flash::new(controller, AS_IT_IS) else { panic!("new is refused") };
    let caught = std::panic::catch_unwind(std::panic::AssertUnwindSafe(|| board.write_pages(0, &data(256))));
    assert!(caught.is_err());
    // The first chunk was finished.
    assert!(board.low_level().log().len() > 2 * 165 && board.low_level().needs_reset());
    board.low_level().bus().1 = 1000;
    let accesses = board.low_level().bus().0.accesses();
    for _ in 0..2 {
        let refused = WritePagesError { error: Error::ResetNeeded, programmed: 0 };
        assert_eq!(board.write_pages(0, &data(4)), Err(refused));
    }
    assert_eq!(board.write_enable(), Err(Error::ResetNeeded));
    assert!(board.low_level().needs_reset());
    assert_eq!(board.low_level().bus().0.accesses(), accesses);
    let mut controller = board.release();
    assert_eq!(controller.initialize(CLOCK, false, false), Ok(0x501));
    assert!(!controller.needs_reset());
}

#[test]
fn errors_say_what_and_by_which_number() {
    let stopped = WritePagesError { error: Error::CrossesPageBoundary, programmed: 128 };
    assert_eq!(stopped.to_string(), "the data would cross the end of a page (5); 128 bytes are programmed");
    assert_eq!(core::error::Error::source(&stopped).unwrap().to_string(), stopped.error.to_string());
    let numbered = [
        (Error::OutOfRange, 1),
        (Error::Alignment, 2),
        (Error::DataTooLarge, 3),
        (Error::NotAligned, 4),
        (Error::CrossesPageBoundary, 5),
        (Error::AddressSpan, 10),
        (Error::FieldTooWide, 12),
        (Error::EraseErrorBitSet, 21),
        (Error::ProgrammingErrorBitSet, 22),
        (Error::RepliesEnded, 23),
        (Error::LogFull, 24),
        (Error::LentLengthChanged, 25),
        (Error::RepeatedSector, 32),
        (Error::ListTooLong, 33),
    ];
    for (error, number) in numbered {
        assert_eq!(error.number(), Some(number));
        assert!(error.to_string().ends_with(&format!(" ({number})")));
    }
    assert_eq!((Error::ResetNeeded.number(), Error::FlashBusy.number()), (None, None));
}
