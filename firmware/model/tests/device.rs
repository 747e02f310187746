//! The model by hand: each command as the accesses of one transfer, and the settings one by one.

use model::{Failure, Mode, Model, Settings};

const START: u32 = 1 << 16;
const HIGH: u32 = 1 << 10;

/// One transfer of words to a TX register: chip select low, the words, start, a reply for each, chip select high.
fn transfer(model: &mut Model, port: u8, words: &[u32]) -> Vec<u32> {
    let config = model.read(0x00);
    model.write(0x00, config & !HIGH);
    for word in words {
        model.write(port, *word);
    }
    model.write(0x00, config & !HIGH | START);
    let replies = words.iter().map(|_| reply(model)).collect();
    let config = model.read(0x00);
    assert_eq!(config & START, 0);
    model.write(0x00, config | HIGH);
    assert!(model.is_at_rest());
    replies
}

fn reply(model: &mut Model) -> u32 {
    while model.read(0x04) & 0x10 == 0 {}
    model.read(0x20)
}

fn command(model: &mut Model, byte: u32) {
    transfer(model, 0x80, &[byte]);
}

fn status(model: &mut Model) -> u8 {
    (transfer(model, 0x84, &[0x05])[0] >> 24) as u8
}

fn program(model: &mut Model, word: u32) {
    command(model, 0x06);
    transfer(model, 0x1C, &[0x0001_0002, word]);
}

/// A page program of a word at 000100 up to its start, after a write enable: config with chip select low.
fn started_program(model: &mut Model, word: u32) -> u32 {
    command(model, 0x06);
    let config = model.read(0x00) & !HIGH;
    model.write(0x00, config);
    model.write(0x1C, 0x0001_0002);
    model.write(0x1C, word);
    model.write(0x00, config | START);
    config
}

fn bytes(model: &Model) -> [u8; 4] {
    [0x100, 0x101, 0x102, 0x103].map(|addr| model.byte(addr))
}

#[test]
fn a_program_needs_the_latch_and_is_an_and() {
    let mut model = Model::default();
    transfer(&mut model, 0x1C, &[0x0001_0002, 0x1234_5678]);
    assert_eq!(bytes(&model), [0xFF; 4]);
    program(&mut model, 0xFF0F_F0FF);
    program(&mut model, 0x1234_5678);
    assert_eq!(bytes(&model), [0x78, 0x50, 0x04, 0x12]);
    assert_eq!(status(&mut model), 0);
    assert_eq!(transfer(&mut model, 0x1C, &[0x0001_0003, 0])[1], 0x1204_5078);
    assert_eq!(transfer(&mut model, 0x1C, &[0x0001_000B, 0])[1], 0x0450_78FF);
    // A program without data changes nothing, and the latch stays.
    command(&mut model, 0x06);
    transfer(&mut model, 0x1C, &[0x0001_0002]);
    assert_eq!(status(&mut model), 0x02);
}

#[test]
fn a_fast_read_may_lack_its_dummy() {
    let mut model = Model::new(Settings { dummy_byte: false, ..Settings::default() });
    model.load(0x100, &[1, 2, 3, 4]);
    assert_eq!(transfer(&mut model, 0x1C, &[0x0001_000B, 0])[1], 0x0403_0201);
}

#[test]
fn busy_shows_for_so_many_reads_and_the_bytes_are_in_doubt() {
    let mut model = Model::new(Settings { busy: 2, looks: 3, ..Settings::default() });
    program(&mut model, 0);
    assert_eq!(model.in_doubt(), Some(0x100..0x104));
    assert_eq!(bytes(&model), [0xFF; 4]);
    // Only status read and clear status are obeyed.
    command(&mut model, 0x06);
    assert_eq!(transfer(&mut model, 0x84, &[0x35])[0] >> 24, 0xFF);
    assert_eq!([(); 3].map(|()| status(&mut model)), [1, 1, 0]);
    assert_eq!((model.in_doubt(), bytes(&model)), (None, [0; 4]));
}

#[test]
fn an_erase_takes_its_sector_alone() {
    let mut model = Model::default();
    model.load(0x1_FFFF, &[0, 0]);
    model.load(0x2_FFFF, &[0, 0]);
    command(&mut model, 0x06);
    transfer(&mut model, 0x1C, &[0x0000_02D8]);
    assert_eq!([0x1_FFFF, 0x2_0000, 0x2_FFFF, 0x3_0000].map(|addr| model.byte(addr)), [0, 0xFF, 0xFF, 0]);
}

#[test]
fn a_failure_shows_until_it_is_cleared() {
    let failure = Failure { work: 1, after: 1, bits: 1 << 6, stays_busy: true };
    let mut model = Model::new(Settings { failure: Some(failure), ..Settings::default() });
    program(&mut model, 0x1234_5678);
    program(&mut model, 0);
    assert_eq!([(); 3].map(|()| status(&mut model)), [0x01, 0x41, 0x41]);
    command(&mut model, 0x30);
    assert_eq!((status(&mut model), bytes(&model)), (0, [0x78, 0x56, 0x34, 0x12]));
}

#[test]
fn registers_are_written_behind_the_latch() {
    let mut model = Model::new(Settings { status: 0x9F, config_register: 0x02, ..Settings::default() });
    transfer(&mut model, 0x88, &[0xAA_0001]);
    assert_eq!((model.status(), model.config_register()), (0x9C, 0x02));
    command(&mut model, 0x06);
    transfer(&mut model, 0x88, &[0xAA_1C01]);
    assert_eq!((status(&mut model), model.config_register()), (0x1C, 0xAA));
    command(&mut model, 0x06);
    command(&mut model, 0x04);
    transfer(&mut model, 0x84, &[0x0001]);
    assert_eq!(model.status(), 0x1C);
}

#[test]
fn ids_follow_the_command() {
    let mut model = Model::default();
    assert_eq!(transfer(&mut model, 0x1C, &[0x9F, 0, 0]), [0x1902_01FF, 0x5280_014D, 0xFFFF_FF30]);
}

#[test]
fn words_wait_before_the_start_and_looks_find_nothing() {
    let mut model = Model::new(Settings { looks: 2, waiting: vec![7, 8], ..Settings::default() });
    assert_eq!((model.read(0x04), model.read(0x20), model.read(0x20), model.read(0x04)), (0x10, 7, 8, 0));
    let config = model.read(0x00) & !HIGH;
    model.write(0x00, config);
    model.write(0x84, 0x05);
    assert_eq!([(); 4].map(|()| model.read(0x04)), [0; 4]);
    model.write(0x00, config | START);
    assert_eq!([(); 4].map(|()| model.read(0x04)), [0, 0, 0x10, 0x10]);
    assert_eq!(model.read(0x20), 0x00FF_0000);
}

/// A page program whose data word is not out as chip select rises: it programs nothing, and the word goes ahead of the next one.
#[test]
fn a_word_that_is_not_out_as_chip_select_rises_waits_for_another_start() {
    let mut model = Model::default();
    let config = started_program(&mut model, 0x1234_5678);
    reply(&mut model);
    model.write(0x00, config | HIGH);
    assert!(!model.is_at_rest() && model.in_doubt().is_none());
    assert_eq!((bytes(&model), model.status()), ([0xFF; 4], 0x02));
    model.write(0x00, config);
    model.write(0x84, 0x05);
    model.write(0x00, config | START);
    // 12345678 goes out first, so that the status read is none.
    assert_eq!([reply(&mut model), reply(&mut model)], [u32::MAX, 0xFFFF_0000]);
    model.write(0x00, config | HIGH);
    assert!(model.is_at_rest());
}

#[test]
fn broken_modes() {
    let mut stuck = Model::new(Settings { mode: Mode::Stuck, waiting: vec![1], ..Settings::default() });
    assert_eq!(stuck.read(0x04), 0);
    let mut ready = Model::new(Settings { mode: Mode::AlwaysReady, ..Settings::default() });
    assert_eq!((ready.read(0x04), ready.read(0x20), ready.read(0x04)), (0x10, 0, 0x10));
    let mut busy = Model::new(Settings { mode: Mode::BusyForEver, ..Settings::default() });
    program(&mut busy, 0);
    assert!((0..100).all(|_| status(&mut busy) == 1));
}

#[test]
fn after_a_cut_nothing_has_an_effect() {
    let mut whole = Model::default();
    program(&mut whole, 0);
    let accesses = whole.accesses();
    // The last access is the rising chip select of the page program.
    for (cut, byte) in [(accesses - 1, 0xFF), (accesses, 0)] {
        let mut model = Model::default();
        model.cut_after(cut);
        let config = started_program(&mut model, 0);
        reply(&mut model);
        reply(&mut model);
        model.read(0x00);
        model.write(0x00, config | HIGH);
        model.write(0x00, config);
        assert_eq!((model.byte(0x100), model.accesses()), (byte, accesses + 1));
        assert_eq!(model.read(0x00), 0);
    }
}
