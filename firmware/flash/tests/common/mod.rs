//! A bus that keeps what goes over it, and every call of the package as a row.
#![allow(dead_code)]

use core::ops::ControlFlow;
use model::Model;
use qspi_flash::{AS_IT_IS, Budget, Bus, Call, Config, EraseSectorsError, Error, Flash, QspiLowLevel, WritePagesError};
use verified::qspi_calls::{sectors, start};
use verified::qspi_operation::Op;
use verified::zedboard_bsp::qspi_spansion::{ConfigRegister1, StatusRegister1};
use verified::zynq7000::slcr::clocks::SrcSelIo;
use verified::zynq7000_hal::qspi::{BaudRateConfig, ClockConfig};

/// Keeps each access as its two log words, and how often it was told to wait. From `turned` on the words of reads are not the
/// bus's own.
pub struct Recorder<B> {
    pub bus: B,
    pub seen: Vec<u32>,
    pub waits: Vec<u32>,
    pub turned: Option<fn(u32) -> u32>,
    pub patience: u32,
    state: u32,
}

impl<B> Recorder<B> {
    pub fn new(bus: B) -> Self {
        Recorder { bus, seen: Vec::new(), waits: Vec::new(), turned: None, patience: u32::MAX, state: 1 }
    }

    /// Forgets what it has seen, and answers by itself from now on.
    pub fn turn(&mut self, seed: u32, answer: fn(u32) -> u32) {
        self.clear();
        self.turned = Some(answer);
        self.state = seed.max(1);
    }

    pub fn clear(&mut self) {
        self.seen.clear();
        self.waits.clear();
    }

    fn random(&mut self) -> u32 {
        self.state ^= self.state << 13;
        self.state ^= self.state >> 17;
        self.state ^= self.state << 5;
        self.state
    }
}

impl<B: Bus> Bus for Recorder<B> {
    fn read(&mut self, offset: u8) -> u32 {
        let random = self.random();
        let word = self.turned.map_or_else(|| self.bus.read(offset), |answer| answer(random));
        self.seen.extend([0x100 + u32::from(offset), word]);
        word
    }

    fn write(&mut self, offset: u8, value: u32) {
        self.bus.write(offset, value);
        self.seen.extend([u32::from(offset), value]);
    }

    fn wait(&mut self, busy: u32) -> ControlFlow<()> {
        self.waits.push(busy);
        if busy >= self.patience { ControlFlow::Break(()) } else { ControlFlow::Continue(()) }
    }
}

/// A flash over a bus on which `new` is done.
pub fn flash<B: Bus>(bus: B, log: &mut [u32], budget: Budget) -> Flash<'_, Recorder<B>> {
    let controller = QspiLowLevel::new(Recorder::new(bus), log, budget);
    let Ok(mut flash) = Flash::new(controller, AS_IT_IS) else { panic!("new is refused") };
    flash.low_level().bus().clear();
    flash
}

/// The data of the calls below.
pub fn data(length: usize) -> Vec<u8> {
    (0..length).map(|i| (i * 7 + i / 128 + 3) as u8).collect()
}

pub const CLOCK: ClockConfig =
    ClockConfig { src_sel: SrcSelIo::IoPll, ref_clk_div: 5, baud_rate_config: BaudRateConfig::WithLoopback };

const ALL_ASKED: Config =
    Config { set_quad_bit_if_necessary: true, latency_config: Some(3), clear_write_protection: true };

pub type Board<'l> = Flash<'l, Recorder<Model>>;
type Ended<'l> = (QspiLowLevel<'l, Recorder<Model>>, Result<(), Error>);

/// A call as its log depends on it, the driver's operation for it with its data and the length of its buffer, and how it is
/// made here.
pub struct Row {
    pub call: Call,
    pub op: fn(usize) -> Op,
    pub data: fn() -> Vec<u8>,
    pub buffer: usize,
    pub make: for<'l> fn(Board<'l>) -> Ended<'l>,
}

impl Row {
    /// Whether it is made of transfers; else it writes registers and sends nothing.
    pub fn transfers(&self) -> bool {
        !matches!(self.call, Call::Initialize | Call::EnableLinearAddressing | Call::EnableIoMode | Call::Disable)
    }
}

macro_rules! rows {
    ($($call:expr, |$log:ident| $op:expr, $data:expr, $buffer:literal => |$flash:ident| $made:expr;)*) => {
        &[$(Row {
            call: $call,
            op: |$log| $op,
            data: || $data,
            buffer: $buffer,
            make: |mut $flash| {
                let ended = $made;
                ($flash.release(), ended)
            },
        }),*]
    };
}

const SECTOR: u32 = 0x03_0000;

/// Sectors in no order, the first and the last one that can be erased among them.
pub const LIST: [u32; 3] = [SECTOR, 0xFE_0000, 0];

/// A list as an operation is lent it.
pub fn numbers(list: &[u32]) -> Vec<u8> {
    sectors::numbered(list)[..list.len()].to_vec()
}

/// The calls of a flash, each in the shapes that its log can have.
pub const ROWS: &[Row] = rows! {
    Call::Initialize, |n| start::initialize(CLOCK, true, false, n), data(0), 0
        => |f| f.low_level().initialize(CLOCK, true, false).map(drop);
    Call::EnableLinearAddressing, |n| start::enable_linear_addressing(0x8000_016B, n), data(0), 0
        => |f| f.low_level().enable_linear_addressing(0x8000_016B);
    Call::EnableIoMode, |n| start::enable_io_mode(false, n), data(0), 0 => |f| f.low_level().enable_io_mode(false);
    Call::EnableIoMode, |n| start::enable_io_mode(true, n), data(0), 0 => |f| f.low_level().enable_io_mode(true);
    Call::Disable, |n| start::disable(n), data(0), 0 => |f| f.low_level().disable();
    Call::SetWriteProtection, |n| start::set_write_protection(5, n), data(0), 0 => |f| f.set_write_protection(5);
    Call::WriteEnable, |n| start::write_enable(n), data(0), 0 => |f| f.write_enable();
    Call::WriteDisable, |n| start::write_disable(n), data(0), 0 => |f| f.write_disable();
    Call::ClearStatus, |n| start::clear_status(n), data(0), 0 => |f| f.clear_status();
    Call::WriteStatus, |n| start::write_status(0x1C, n), data(0), 0 => |f| f.write_status(StatusRegister1(0x1C));
    Call::WriteStatusAndConfigRegister, |n| start::write_status_and_config_register(0x08, 2, n), data(0), 0
        => |f| f.write_status_and_config_register(StatusRegister1(0x08), ConfigRegister1(2));
    Call::ReadStatusRegister1, |n| start::read_status_register_1(n), data(0), 0 => |f| f.read_status_register_1().map(drop);
    Call::ReadConfigurationRegister, |n| start::read_configuration_register(n), data(0), 0
        => |f| f.read_configuration_register().map(drop);
    Call::ReadRdidBase, |n| start::read_rdid_base(n), data(0), 0 => |f| f.read_rdid_base().map(drop);
    Call::ReadRdidExtended, |n| start::read_rdid_extended(n), data(0), 0 => |f| f.read_rdid_extended().map(drop);
    Call::EraseSector, |n| start::erase_sector(SECTOR, n), data(0), 0 => |f| f.erase_sector(SECTOR);
    Call::EraseSectors(0), |n| start::erase_sectors(&[], n), data(0), 0 => |f| listed(f.erase_sectors(&[]));
    Call::EraseSectors(1), |n| start::erase_sectors(&LIST[..1], n), numbers(&LIST[..1]), 0
        => |f| listed(f.erase_sectors(&LIST[..1]));
    Call::EraseSectors(3), |n| start::erase_sectors(&LIST, n), numbers(&LIST), 0 => |f| listed(f.erase_sectors(&LIST));
    Call::Program(0), |n| start::program(SECTOR, 0, n), data(0), 0 => |f| f.program(SECTOR, &[]);
    Call::Program(240), |n| start::program(SECTOR, 240, n), data(240), 0 => |f| f.program(SECTOR, &data(240));
    Call::WritePages(0), |n| start::write_pages(SECTOR, 0, n), data(0), 0 => |f| pages(f.write_pages(SECTOR, &[]));
    Call::WritePages(128), |n| start::write_pages(SECTOR + 0x80, 128, n), data(128), 0
        => |f| pages(f.write_pages(SECTOR + 0x80, &data(128)));
    Call::WritePages(388), |n| start::write_pages(SECTOR, 388, n), data(388), 0
        => |f| pages(f.write_pages(SECTOR, &data(388)));
    Call::ReadPageRead(0), |n| start::read_page_read(0, 0, n), data(0), 0 => |f| f.read_page_read(0, &mut []);
    Call::ReadPageRead(1), |n| start::read_page_read(2, 1, n), data(0), 1 => |f| f.read_page_read(2, &mut [0; 1]);
    Call::ReadPageRead(700), |n| start::read_page_read(3, 700, n), data(0), 700 => |f| f.read_page_read(3, &mut [0; 700]);
    Call::ReadFastRead(247, true), |n| start::read_fast_read(3, true, 247, n), data(0), 247
        => |f| f.read_fast_read(3, &mut [0; 247], true);
    Call::ReadFastRead(501, true), |n| start::read_fast_read(3, true, 501, n), data(0), 501
        => |f| f.read_fast_read(3, &mut [0; 501], true);
    Call::ReadFastRead(496, false), |n| start::read_fast_read(3, false, 496, n), data(0), 496
        => |f| f.read_fast_read(3, &mut [0; 496], false);
};

/// `new`, which makes a flash, asked for all that it can do.
pub const NEW: Row = Row {
    call: Call::New,
    op: |n| start::new(ALL_ASKED, n),
    data: Vec::new,
    buffer: 0,
    make: |flash| match Flash::new(flash.release(), ALL_ASKED) {
        Ok(flash) => (flash.release(), Ok(())),
        Err((error, controller)) => (controller, Err(error)),
    },
};

/// All of them.
pub fn rows() -> impl Iterator<Item = &'static Row> {
    ROWS.iter().chain([&NEW])
}

fn pages(ended: Result<usize, WritePagesError>) -> Result<(), Error> {
    ended.map(drop).map_err(|stopped| stopped.error)
}

fn listed(ended: Result<usize, EraseSectorsError>) -> Result<(), Error> {
    ended.map(drop).map_err(|stopped| stopped.error)
}
