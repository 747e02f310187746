//! The board's controller and flash.
use qspi_flash::{AS_IT_IS, Budget, Bus, Call, Flash, QspiLowLevel, Registers, log_words};
use verified::zynq7000::qspi::{CONFIG, Config, INTERRUPT_STATUS, InterruptStatus, RX_DATA};
use verified::zynq7000::slcr::clocks::SrcSelIo;
use verified::zynq7000_hal::qspi::{BaudRateConfig, ClockConfig, FIFO_DEPTH};

/// QEMU's flash is never at work for long, and its replies are there at once.
pub const BUDGET: Budget = Budget { looks: 256, busy: 16 };
/// What one call may read.
pub const LONGEST_READ: usize = 0x1000;
pub const LOG_WORDS: usize = log_words(Call::ReadFastRead(LONGEST_READ, true), BUDGET);

const CLOCK: ClockConfig =
    ClockConfig { src_sel: SrcSelIo::IoPll, ref_clk_div: 5, baud_rate_config: BaudRateConfig::WithLoopback };

// Config: further chip selects, for QEMU alone; chip select high; chip select and start are the program's; start.
const OTHER_SELECTS: u32 = 0b111 << 11;
const SELECT: u32 = 1 << Config::PERIPHERAL_CHIP_SELECT;
const MANUAL: u32 = 1 << Config::MANUAL_CS | 1 << Config::MANUAL_START_ENABLE;
const START: u32 = 1 << Config::MANUAL_START_COMMAND;

pub type BoardFlash<'l> = Flash<'l, Registers>;

/// Makes controller and flash ready after power-on.
pub fn ready(log: &mut [u32]) -> BoardFlash<'_> {
    // SAFETY: the demo runs on a Zynq-7000, its memory management is off, and nobody else has these registers.
    let bus = unsafe { Registers::zynq() };
    let mut controller = QspiLowLevel::new(bus, log, BUDGET);
    drop_words(controller.bus());
    controller.initialize(CLOCK, false, false).expect("initialize");
    controller.enable_io_mode(false).expect("enable_io_mode");
    leave_other_chips(controller.bus());
    Flash::new(controller, AS_IT_IS).unwrap_or_else(|(error, _)| panic!("new: {error}"))
}

/// A reset on QEMU keeps the words that wait to be sent; the part is taken to drop them. Here they go out while no chip is
/// selected: the word of `initialize` would send them to the flash, a write enable for one.
fn drop_words(bus: &mut impl Bus) {
    let rest = OTHER_SELECTS | SELECT | MANUAL;
    bus.write(CONFIG, rest);
    bus.write(CONFIG, rest | START);
    for _ in 0..FIFO_DEPTH {
        if InterruptStatus(bus.read(INTERRUPT_STATUS)).rx_above_threshold() {
            bus.read(RX_DATA);
        }
    }
}

/// QEMU takes bits 11 to 13 of config, which are reserved on the part, for the selects of further chips; set, they are
/// high. Once is enough: the driver writes back what it reads there.
fn leave_other_chips(bus: &mut impl Bus) {
    let config = bus.read(CONFIG);
    bus.write(CONFIG, config | OTHER_SELECTS);
}
