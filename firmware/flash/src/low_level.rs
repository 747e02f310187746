//! The controller: how a call is made on the bus, and the calls that set the controller up.

use crate::patience::Patience;
use crate::{Budget, Bus, Error};
use core::fmt;
use core::ops::ControlFlow;
use verified::qspi_calls::start;
use verified::qspi_driver::QspiSpansionS25Fl256SIoMode;
use verified::qspi_driver::state::{self, Progress, StartRefused};
use verified::qspi_operation::{Op, is_going};
use verified::qspi_script::{Stage, Status};
use verified::qspi_transfer::{Due, Phase};
use verified::zynq7000_hal::qspi::ClockConfig;

/// The QSPI controller behind a bus. It holds the proved driver, and lends it a log: two words for each access of the call at
/// hand, the offset (plus 100 hex for a read) and the value.
pub struct QspiLowLevel<'l, B> {
    bus: B,
    log: &'l mut [u32],
    budget: Budget,
    driver: QspiSpansionS25Fl256SIoMode,
    reset_needed: bool,
    flash_busy: bool,
}

impl<'l, B: Bus> QspiLowLevel<'l, B> {
    /// Makes no access. No transfer may be open, no word may wait, and the flash may not be at work. [log_words](crate::log_words)
    /// says how long a log has to be.
    pub fn new(bus: B, log: &'l mut [u32], budget: Budget) -> Self {
        let driver = QspiSpansionS25Fl256SIoMode::idle();
        QspiLowLevel { bus, log, budget, driver, reset_needed: false, flash_busy: false }
    }

    /// Writes the config word and, with loopback, the loopback delay; gives the word for the SLCR's LQSPI_CLK_CTRL, which is
    /// the caller's to write. Unlike the Rust's it resets nothing: where [needs_reset](Self::needs_reset) says so, reset the
    /// controller by the SLCR first.
    pub fn initialize(&mut self, clock_config: ClockConfig, phase: bool, polarity: bool) -> Result<u32, Error> {
        let op = start::initialize(clock_config, phase, polarity, self.log.len());
        // Refused, it makes no access: what was open stays open.
        if let Some(error) = Error::of(op.status) {
            return Err(error);
        }
        self.driver = QspiSpansionS25Fl256SIoMode::idle();
        self.reset_needed = false;
        self.command(op)?;
        Ok(self.answer().lqspi_clk_ctrl())
    }

    /// Start and chip select become the program's. The calls of [Flash](crate::Flash) need it.
    pub fn enable_io_mode(&mut self, dual_flash: bool) -> Result<(), Error> {
        self.command(start::enable_io_mode(dual_flash, self.log.len()))
    }

    /// The flash as memory: `config` is a word as `linear_mode_config_for_common_devices` gives it.
    pub fn enable_linear_addressing(&mut self, config: u32) -> Result<(), Error> {
        self.command(start::enable_linear_addressing(config, self.log.len()))
    }

    /// Disables the controller, with chip select high. It empties nothing, and takes the place of no reset.
    pub fn disable(&mut self) -> Result<(), Error> {
        self.command(start::disable(self.log.len()))
    }

    /// Whether a call was stopped inside a transfer, or one of this type's own calls at any place. Each further one but
    /// [initialize](Self::initialize) is then refused.
    pub fn needs_reset(&self) -> bool {
        // An operation is under way only where the bus has panicked.
        self.reset_needed || is_going(self.driver.state.op.status)
    }

    /// Whether the flash may be at work: a call began a program, an erase or a write of its registers, and no status has shown
    /// the end. Its calls but for status read and clear status are then refused. A reset of the controller does not stop the flash.
    pub fn flash_busy(&self) -> bool {
        self.flash_busy
    }

    /// The log of the last call that was begun.
    pub fn log(&self) -> &[u32] {
        &self.log[..self.answer().used]
    }

    /// For the calls to come.
    pub fn set_budget(&mut self, budget: Budget) {
        self.budget = budget;
    }

    /// Of each call.
    pub fn budget(&self) -> Budget {
        self.budget
    }

    /// The bus. Its accesses by others are not in the log, and a transfer of theirs has to be closed.
    pub fn bus(&mut self) -> &mut B {
        &mut self.bus
    }

    /// Gives back what was lent. Ask [needs_reset](Self::needs_reset) before: nobody knows it after.
    pub fn release(self) -> (B, &'l mut [u32]) {
        (self.bus, self.log)
    }

    /// The answer of the last call that was begun.
    pub(crate) fn answer(&self) -> Progress {
        self.driver.answer()
    }

    /// The words of log that a call is lent.
    pub(crate) fn room(&self) -> usize {
        self.log.len()
    }

    /// A call without data and without a read buffer.
    pub(crate) fn command(&mut self, op: Op) -> Result<(), Error> {
        self.call(op, &[], &mut [])
    }

    /// A call from its start to its end.
    pub(crate) fn call(&mut self, op: Op, data: &[u8], buffer: &mut [u8]) -> Result<(), Error> {
        self.check_at_rest()?;
        let begun = self.driver.start(op);
        self.finish(begun, data, buffer)
    }

    /// The call of a list of sectors. The driver copies the list, and each step is lent the copy.
    pub(crate) fn erase_sectors(&mut self, list: &[u32]) -> Result<(), Error> {
        self.check_at_rest()?;
        let begun = self.driver.erase_sectors(list, self.log.len());
        self.finish(begun, &[], &mut [])
    }

    /// Refuses what would go out behind the words of an open transfer.
    fn check_at_rest(&self) -> Result<(), Error> {
        if self.needs_reset() { Err(Error::ResetNeeded) } else { Ok(()) }
    }

    /// A call that has begun, to its end. Each turn makes one access or ends the call, and the log has an end: so has this.
    fn finish(&mut self, begun: Result<Status, StartRefused>, data: &[u8], buffer: &mut [u8]) -> Result<(), Error> {
        let mut patience = Patience::new(self.budget);
        let mut answer = begun;
        while state::is_under_way(answer) {
            let (stage, phase, used) = (self.stage(), self.phase(), self.driver.state.op.used);
            let reply = self.access(data, &mut patience);
            answer = self.driver.step(data, buffer, self.log, reply);
            if self.driver.state.op.used > used {
                self.follow(stage);
            }
            if phase == Phase::Disable && state::is_under_way(answer) {
                self.between(stage, &mut patience);
            }
        }
        self.end(answer)
    }

    /// Makes the access that is due, and gives the reply of a read. It makes none where the log has no room for it, so that the
    /// step answers 24, nor where patience has ended and a read is due, so that the step answers 23.
    fn access(&mut self, data: &[u8], patience: &mut Patience) -> Option<u32> {
        if self.log.len() - self.driver.state.op.used < 2 {
            return None;
        }
        match self.driver.due(data) {
            Ok(Some(Due::Read(_))) if patience.has_ended() => None,
            Ok(Some(Due::Read(offset))) => {
                let word = self.bus.read(offset);
                patience.look(self.phase(), word);
                Some(word)
            }
            Ok(Some(Due::Write(offset, value))) => {
                self.bus.write(offset, value);
                None
            }
            Ok(None) | Err(_) => None,
        }
    }

    /// Keeps what the flash may be doing, after an access of a stage. A transfer that sets it to work counts from its first access
    /// on: a reset in the middle raises chip select too.
    fn follow(&mut self, stage: Stage) {
        match (stage, self.stage()) {
            (Stage::Program | Stage::Erase | Stage::WriteStatus | Stage::WriteRegisters, _) => self.flash_busy = true,
            // The status shows an error: the flash is at work until that is cleared.
            (Stage::Poll, Stage::Poll | Stage::Clear) => {}
            (Stage::Poll, _) | (Stage::Clear, Stage::Disable) => self.flash_busy = false,
            _ => {}
        }
    }

    /// What a status read showed of the flash.
    pub(crate) fn set_flash_busy(&mut self, busy: bool) {
        self.flash_busy = busy;
    }

    /// A transfer is over and another one comes.
    fn between(&mut self, over: Stage, patience: &mut Patience) {
        match (over, self.stage()) {
            (Stage::Program | Stage::Erase, Stage::Poll) => patience.begin(),
            (Stage::Poll, Stage::Poll) => self.wait(patience),
            _ => {}
        }
    }

    /// Between two status transfers: the firmware waits.
    fn wait(&mut self, patience: &mut Patience) {
        let busy = patience.busy();
        if !patience.has_ended() && self.bus.wait(busy) == ControlFlow::Break(()) {
            patience.end();
        }
    }

    fn end(&mut self, answer: Result<Status, StartRefused>) -> Result<(), Error> {
        match answer {
            Ok(status) => {
                if matches!(status, Status::RepliesEnded | Status::LogFull) {
                    self.reset_needed = self.is_open();
                }
                Error::of(status).map_or(Ok(()), Err)
            }
            // Never met: nothing is under way as a call starts, and a list comes with its start.
            Err(StartRefused::Busy | StartRefused::ListMissing) => Err(Error::ResetNeeded),
        }
    }

    /// Whether the access that is due stands inside a transfer, or inside a row of register writes. Up to the write that lowers
    /// chip select the controller rests.
    fn is_open(&self) -> bool {
        !matches!(self.phase(), Phase::DrainStatus | Phase::DrainData | Phase::OpenRead | Phase::OpenWrite)
    }

    fn stage(&self) -> Stage {
        self.driver.state.op.place.stage
    }

    fn phase(&self) -> Phase {
        self.driver.state.op.wire.phase
    }
}

impl<B> fmt::Debug for QspiLowLevel<'_, B> {
    fn fmt(&self, f: &mut fmt::Formatter<'_>) -> fmt::Result {
        f.debug_struct("QspiLowLevel")
            .field("status", &self.driver.state.op.status)
            .field("reset_needed", &self.reset_needed)
            .field("flash_busy", &self.flash_busy)
            .field("budget", &self.budget)
            .finish_non_exhaustive()
    }
}
