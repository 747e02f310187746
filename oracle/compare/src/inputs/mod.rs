//! The calls that are compared: sweeps of every border for each kind of call, and random ones.

mod array;
mod clocks;
mod long;
mod registers;
mod sectors;

use crate::check::{Cuts, Found, On, Probe};
use crate::device::Knobs;
use crate::domain;
use crate::kind::Kind;
use crate::rng::Rng;
use call::Call;

pub use long::{LARGEST_SAVE, LONG, long};

/// What is done with a probe; the first run that is no agreement ends a sweep.
pub type Visit<'a> = dyn FnMut(Probe) -> Result<(), Box<Found>> + 'a;
/// How a sweep ends.
pub type Swept = Result<(), Box<Found>>;

/// How much a sweep takes in.
#[derive(Clone, Copy, Debug, PartialEq, Eq)]
pub enum Scale {
    Default,
    Long,
}

/// Hands on the probes of a sweep. What is out of the domain is left out here, in one place for all.
pub struct Sweep<'a> {
    pub scale: Scale,
    pub rng: Rng,
    visit: &'a mut Visit<'a>,
}

impl<'a> Sweep<'a> {
    pub fn new(scale: Scale, rng: Rng, visit: &'a mut Visit<'a>) -> Self {
        Sweep { scale, rng, visit }
    }

    fn probe(&mut self, call: Call, on: On, cuts: Cuts) -> Swept {
        if !domain::holds(&call) {
            return Ok(());
        }
        let seed = self.rng.next();
        (self.visit)(Probe { call, on, cuts, seed })
    }

    /// On a device with random knobs.
    fn drawn(&mut self, call: Call, cuts: Cuts) -> Swept {
        let on = On::Device(Knobs::drawn(&mut self.rng));
        self.probe(call, on, cuts)
    }

    /// A call that makes no access.
    fn pure(&mut self, call: Call) -> Swept {
        self.probe(call, On::Noise, Cuts::Whole)
    }
}

/// Random replies in each sweep, for odd branches.
const NOISES: usize = 60;

/// Every border of a kind of call, and random replies.
pub fn sweep(kind: Kind, sweep: &mut Sweep<'_>) -> Swept {
    borders(kind, sweep)?;
    for _ in 0..if kind.has_log() { NOISES } else { 0 } {
        let call = random_call(kind, &mut sweep.rng);
        sweep.probe(call, On::Noise, Cuts::Every)?;
    }
    Ok(())
}

fn borders(kind: Kind, sweep: &mut Sweep<'_>) -> Swept {
    match kind {
        Kind::Calculate => clocks::calculate(sweep),
        Kind::CalculateWithLoopback => clocks::calculate_with_loopback(sweep),
        Kind::LinearModeConfig => registers::linear_mode_config(sweep),
        Kind::Initialize => registers::initialize(sweep),
        Kind::EnableLinearAddressing => registers::enable_linear_addressing(sweep),
        Kind::EnableIoMode => registers::enable_io_mode(sweep),
        Kind::Disable => registers::disable(sweep),
        Kind::New => registers::new(sweep),
        Kind::WriteEnable => registers::command(sweep, Call::WriteEnable),
        Kind::WriteDisable => registers::command(sweep, Call::WriteDisable),
        Kind::ClearStatus => registers::command(sweep, Call::ClearStatus),
        Kind::WriteStatus => registers::write_status(sweep),
        Kind::WriteStatusAndConfigRegister => registers::write_status_and_config_register(sweep),
        Kind::ReadStatusRegister1 => registers::read_status_register_1(sweep),
        Kind::ReadConfigurationRegister => registers::read_configuration_register(sweep),
        Kind::ReadRdidBase => registers::ids(sweep, Call::ReadRdidBase, 3),
        Kind::ReadRdidExtended => registers::ids(sweep, Call::ReadRdidExtended, 8),
        Kind::EraseSector => array::erase_sector(sweep),
        Kind::Program => array::program(sweep),
        Kind::WritePages => array::write_pages(sweep),
        Kind::ReadPageRead => array::read_page_read(sweep),
        Kind::ReadFastRead => array::read_fast_read(sweep),
        Kind::EraseSectors => sectors::erase_sectors(sweep),
    }
}

/// A random call of a kind, on a device or on random replies.
pub fn random(kind: Kind, rng: &mut Rng) -> Probe {
    let call = loop {
        let call = random_call(kind, rng);
        if domain::holds(&call) {
            break call;
        }
    };
    let on = if rng.chance(60) { On::Device(Knobs::drawn(rng)) } else { On::Noise };
    let cuts = if rng.chance(20) { Cuts::Every } else { Cuts::Random(10) };
    Probe { call, on, cuts, seed: rng.next() }
}

fn random_call(kind: Kind, rng: &mut Rng) -> Call {
    match kind {
        Kind::Calculate => clocks::random(rng),
        Kind::CalculateWithLoopback => clocks::random_with_loopback(rng),
        Kind::EraseSector => Call::EraseSector { addr: array::random_sector(rng) },
        Kind::Program => {
            let length = array::random_length(rng, 260);
            Call::Program { addr: array::random_address(rng, length), data: rng.bytes(length) }
        }
        Kind::WritePages => {
            let length = array::random_length(rng, 1100);
            Call::WritePages { addr: array::random_address(rng, length), data: rng.bytes(length) }
        }
        Kind::ReadPageRead => {
            let length = array::random_length(rng, 800);
            Call::ReadPageRead { addr: array::random_address(rng, length), length }
        }
        Kind::ReadFastRead => {
            let length = array::random_length(rng, 800);
            Call::ReadFastRead { addr: array::random_address(rng, length), dummy_byte: rng.flag(), length }
        }
        Kind::EraseSectors => Call::EraseSectors { list: sectors::random(rng) },
        _ => registers::random(kind, rng),
    }
}
