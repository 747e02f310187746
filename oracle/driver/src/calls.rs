//! A [Call] made on the published Rust. This file is compiled twice, against either recorder, and knows of it only what
//! both have: `silent` and `slcr`.

use arbitrary_int::{u2, u3, u6};
use call::{Call, Clocks};
use embedded_hal::spi::{Mode, Phase, Polarity};
use zedboard_bsp::qspi_spansion::{
    AddrError, BaseDeviceId, Config, ConfigRegister1, EraseError, ExtendedDeviceId, ProgramPageError,
    QspiSpansionS25Fl256SIoMode, StatusRegister1,
};
use zynq7000::qspi::{BaudRateDivisor, InstructionCode, Registers};
use zynq7000_hal::{
    clocks::{self, pll},
    gpio::mio::{Mio1, Mio2, Mio3, Mio4, Mio5, Mio6, Pin},
    qspi::{
        BaudRateConfig, ClockCalculationError, ClockConfig, IoType, LinearQspiConfig, MODE_0, Qspi,
        QspiDeviceCombination, QspiIoMode, QspiLowLevel, QspiVendor, SrcSelIo, linear_mode_config_for_common_devices,
    },
    time::Hertz,
};

/// The flash driver under test.
pub type Flash = QspiSpansionS25Fl256SIoMode;

/// Offset of LQSPI_CLK_CTRL from the SLCR's base.
pub const LQSPI_CLK_CTRL: u32 = 0x14C;

/// The replies that [flash] needs: those of one clear status.
pub const FLASH_REPLIES: [u32; 6] = [0, 0, 0, 0x10, 0, 0];

const DONE: u32 = 0;
const UNKNOWN_CODE: u32 = 11;

/// The values of an answer; see [call::Ended::values].
#[derive(Clone, Copy, Debug, Default, PartialEq, Eq)]
pub struct Values {
    words: [u32; 9],
    length: usize,
}

impl Values {
    #[inline]
    pub fn as_slice(&self) -> &[u32] {
        &self.words[..self.length]
    }

    #[inline]
    fn push(&mut self, word: impl Into<u32>) {
        self.words[self.length] = word.into();
        self.length += 1;
    }
}

impl<const N: usize> From<[u32; N]> for Values {
    #[inline]
    fn from(from: [u32; N]) -> Self {
        let mut words = [0; 9];
        words[..N].copy_from_slice(&from);
        Self { words, length: N }
    }
}

/// Makes a call, without catching anything. Reads fill the first `length` bytes of the buffer.
#[inline]
pub fn call_published(call: &Call, flash: &mut Flash, buffer: &mut [u8]) -> (u32, Values) {
    match call {
        Call::WriteEnable => flash.write_enable(),
        Call::WriteDisable => flash.write_disable(),
        Call::ClearStatus => flash.clear_status(),
        Call::WriteStatus { sr } => flash.write_status(StatusRegister1::new_with_raw_value(*sr)),
        Call::WriteStatusAndConfigRegister { sr, cr } => write_both(flash, *sr, *cr),
        Call::ReadPageRead { addr, length } => flash.read_page_read(*addr, &mut buffer[..*length]),
        Call::ReadFastRead { addr, dummy_byte, length } => {
            flash.read_fast_read(*addr, &mut buffer[..*length], *dummy_byte);
        }
        Call::EraseSector { addr } => return without_values(erase_answer(flash.erase_sector(*addr))),
        Call::EraseSectors { list } => return without_values(erase_each(flash, list)),
        Call::Program { addr, data } => return without_values(program_answer(flash.program(*addr, data))),
        Call::WritePages { addr, data } => return without_values(program_answer(flash.write_pages(*addr, data))),
        _ => return call_with_values(call, flash),
    }
    without_values(DONE)
}

/// The flash driver, by the way that makes the fewest accesses: it uses [FLASH_REPLIES].
pub fn flash() -> Flash {
    Flash::new(recorder::silent(io_mode), Config::default())
}

#[inline]
fn without_values(answer: u32) -> (u32, Values) {
    (answer, Values::default())
}

fn call_with_values(call: &Call, flash: &mut Flash) -> (u32, Values) {
    match call {
        Call::ReadStatusRegister1 => (DONE, [flash.read_status_register_1().raw_value().into()].into()),
        Call::ReadConfigurationRegister => (DONE, [flash.read_configuration_register().raw_value().into()].into()),
        Call::ReadRdidBase => (DONE, base_id(&flash.read_rdid_base())),
        Call::ReadRdidExtended => (DONE, extended_id(&flash.read_rdid_extended())),
        Call::New { set_quad, latency, clear_protection } => {
            let config = Config {
                set_quad_bit_if_necessary: *set_quad,
                latency_config: latency.map(u2::new),
                clear_write_protection: *clear_protection,
            };
            Flash::new(recorder::silent(io_mode), config);
            without_values(DONE)
        }
        _ => call_low_level(call),
    }
}

fn call_low_level(call: &Call) -> (u32, Values) {
    // SAFETY: the registers are the recorder's, which the thread owns.
    let mut qspi = QspiLowLevel::new(unsafe { Registers::new_mmio_fixed() });
    match call {
        Call::Initialize { src_sel, ref_clk_div, baud_rate_div, phase, polarity } => {
            let baud_rate = match baud_rate_div {
                Some(code) => BaudRateConfig::WithoutLoopback(BaudRateDivisor::new_with_raw_value(u3::new(*code))),
                None => BaudRateConfig::WithLoopback,
            };
            qspi.initialize(
                ClockConfig::new(source(*src_sel), u6::new(*ref_clk_div), baud_rate),
                mode(*phase, *polarity),
            );
            return (DONE, [recorder::slcr(LQSPI_CLK_CTRL)].into());
        }
        Call::EnableLinearAddressing { config } => {
            qspi.enable_linear_addressing(LinearQspiConfig::new_with_raw_value(*config));
        }
        Call::EnableIoMode { dual_flash } => qspi.enable_io_mode(*dual_flash),
        Call::Disable => qspi.disable(),
        _ => return call_without_access(call),
    }
    without_values(DONE)
}

fn call_without_access(call: &Call) -> (u32, Values) {
    match call {
        Call::Calculate { src_sel, clocks, target_ref, target_interface } => clock_answer(ClockConfig::calculate(
            source(*src_sel),
            &published_clocks(clocks),
            Hertz::from_raw(*target_ref),
            Hertz::from_raw(*target_interface),
        )),
        Call::CalculateWithLoopback { src_sel, clocks, target_interface } => {
            clock_answer(ClockConfig::calculate_with_loopback(
                source(*src_sel),
                &published_clocks(clocks),
                Hertz::from_raw(*target_interface),
            ))
        }
        Call::LinearModeConfig { micron, operating_mode, two_devices } => {
            let Ok(operating_mode) = InstructionCode::new_with_raw_value(*operating_mode) else {
                return without_values(UNKNOWN_CODE);
            };
            let vendor = if *micron { QspiVendor::Micron } else { QspiVendor::WinbondAndSpansion };
            let combination = QspiDeviceCombination { vendor, operating_mode, two_devices: *two_devices };
            (DONE, [linear_mode_config_for_common_devices(combination).raw_value()].into())
        }
        _ => unreachable!("every other call was made before"),
    }
}

/// I/O mode is reached through the constructor with pins; its accesses are not those of the call under test.
fn io_mode() -> QspiIoMode {
    let clock_config =
        ClockConfig::new(SrcSelIo::IoPll, u6::new(1), BaudRateConfig::WithoutLoopback(BaudRateDivisor::_2));
    Qspi::new_single_qspi(
        // SAFETY: the registers are the recorder's, which the thread owns.
        unsafe { Registers::new_mmio_fixed() },
        clock_config,
        MODE_0,
        IoType::LvCmos33,
        Pin::new(Mio1),
        (Pin::new(Mio2), Pin::new(Mio3), Pin::new(Mio4), Pin::new(Mio5)),
        Pin::new(Mio6),
    )
    .into_io_mode(false)
}

fn write_both(flash: &mut Flash, sr: u8, cr: u8) {
    // SAFETY: no chip is there whose one-time bits could be set.
    unsafe {
        flash.write_status_and_config_register(
            StatusRegister1::new_with_raw_value(sr),
            ConfigRegister1::new_with_raw_value(cr),
        );
    }
}

fn source(code: u8) -> SrcSelIo {
    SrcSelIo::new_with_raw_value(u2::new(code))
}

fn mode(phase: bool, polarity: bool) -> Mode {
    Mode {
        polarity: if polarity { Polarity::IdleHigh } else { Polarity::IdleLow },
        phase: if phase { Phase::CaptureOnSecondTransition } else { Phase::CaptureOnFirstTransition },
    }
}

fn published_clocks(clocks: &Clocks) -> clocks::Clocks {
    pll::clocks(
        Hertz::from_raw(clocks.io_ref_clk),
        Hertz::from_raw(clocks.arm_ref_clk),
        Hertz::from_raw(clocks.ddr_ref_clk),
        Hertz::from_raw(clocks.cpu_1x_clk),
    )
}

fn clock_answer(result: Result<ClockConfig, ClockCalculationError>) -> (u32, Values) {
    match result {
        Ok(config) => (DONE, clock_values(&config)),
        Err(ClockCalculationError::RefDivOutOfRange) => without_values(6),
        Err(ClockCalculationError::RefClockSmallerThanCpu1xClock) => without_values(7),
    }
}

fn clock_values(config: &ClockConfig) -> Values {
    let loopback = config.baud_rate_config == BaudRateConfig::WithLoopback;
    let divisor = config.baud_rate_config.baud_rate_divisor().divisor();
    [config.src_sel.raw_value().into(), config.ref_clk_div.into(), loopback.into(), divisor as u32].into()
}

/// One erase after the other, each on the replies and the driver that the one before left, up to the first that is not done.
#[inline]
fn erase_each(flash: &mut Flash, list: &[u32]) -> u32 {
    let mut answers = list.iter().map(|addr| erase_answer(flash.erase_sector(*addr)));
    answers.find(|answer| *answer != DONE).unwrap_or(DONE)
}

#[inline]
fn erase_answer(result: Result<(), EraseError>) -> u32 {
    match result {
        Ok(()) => DONE,
        Err(EraseError::EraseErrorBitSet) => 21,
        Err(EraseError::Addr(error)) => addr_answer(error),
    }
}

#[inline]
fn program_answer(result: Result<(), ProgramPageError>) -> u32 {
    match result {
        Ok(()) => DONE,
        Err(ProgramPageError::ProgrammingErrorBitSet) => 22,
        Err(ProgramPageError::Addr(error)) => addr_answer(error),
        Err(ProgramPageError::DataTooLarge) => 3,
        Err(ProgramPageError::NotAligned) => 4,
        Err(ProgramPageError::CrossesPageBoundary) => 5,
    }
}

fn addr_answer(error: AddrError) -> u32 {
    match error {
        AddrError::OutOfRange => 1,
        AddrError::Alignment => 2,
    }
}

fn base_id(id: &BaseDeviceId) -> Values {
    let [interface_type, density] = id.device_id_raw().to_be_bytes();
    let mut values = Values::default();
    values.push(id.manufacturer_id());
    values.push(id.device_id_raw());
    values.push(code(id.memory_interface_type(), interface_type));
    values.push(code(id.density(), density));
    values
}

fn extended_id(id: &ExtendedDeviceId) -> Values {
    let mut values = base_id(&id.base_id());
    values.push(id.id_cfi_len());
    values.push(id.sector_arch_raw());
    values.push(code(id.sector_arch(), id.sector_arch_raw()));
    values.push(id.family_id());
    values.push(u16::from_be_bytes(*id.model_number_raw()));
    values
}

/// 0 for a listed code; 11 for another, of which the Rust gives the byte.
fn code<T>(field: Result<T, u8>, raw: u8) -> u32 {
    match field {
        Ok(_) => DONE,
        Err(byte) => {
            assert!(byte == raw, "an unknown code comes with its byte");
            UNKNOWN_CODE
        }
    }
}
