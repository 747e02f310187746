//! The flash chip: the calls of the driver as ordinary methods, under the Rust's names.

use crate::{AS_IT_IS, Bus, EraseSectorsError, Error, QspiLowLevel, WritePagesError};
use core::ops::ControlFlow;
use verified::qspi_calls::start::{self, Config};
use verified::qspi_operation::Op;
use verified::qspi_script::Gives;
use verified::zedboard_bsp::qspi_spansion::device_id::{BaseDeviceId, ExtendedDeviceId};
use verified::zedboard_bsp::qspi_spansion::{ConfigRegister1, StatusRegister1};

/// The S25FL256S behind a controller in I/O mode. A method makes its call on the bus, access by access, to its end.
#[derive(Debug)]
pub struct Flash<'l, B> {
    low_level: QspiLowLevel<'l, B>,
}

impl<'l, B: Bus> Flash<'l, B> {
    /// Clears the status register, and brings status and configuration register to what is asked for. Where it fails the
    /// controller comes back with the error.
    ///
    /// Where it had to write the registers the flash is at work afterwards: [wait_until_idle](Self::wait_until_idle).
    #[allow(clippy::result_large_err)]
    pub fn new(low_level: QspiLowLevel<'l, B>, config: Config) -> Result<Self, (Error, QspiLowLevel<'l, B>)> {
        let mut flash = Flash::over(low_level);
        let op = start::new(config, flash.low_level.room());
        // Clear status is obeyed by a flash at work, the rest of it is not.
        let ended = if config == AS_IT_IS { flash.low_level.command(op) } else { flash.command(op) };
        match ended {
            Ok(()) => Ok(flash),
            Err(error) => Err((error, flash.low_level)),
        }
    }

    /// Over a controller and a flash that have been through [new](Self::new). Makes no access.
    pub fn over(low_level: QspiLowLevel<'l, B>) -> Self {
        Flash { low_level }
    }

    /// Bits 2 to 4 of the status register, and bit 7 clear. It does not wait for the flash: [wait_until_idle](Self::wait_until_idle).
    pub fn set_write_protection(&mut self, write_protection: u8) -> Result<(), Error> {
        let op = start::set_write_protection(write_protection, self.low_level.room());
        self.command(op)
    }

    /// WREN: sets the latch that a program or an erase needs. Both do it by themselves.
    pub fn write_enable(&mut self) -> Result<(), Error> {
        let op = start::write_enable(self.low_level.room());
        self.command(op)
    }

    /// WRDI: clears the latch.
    pub fn write_disable(&mut self) -> Result<(), Error> {
        let op = start::write_disable(self.low_level.room());
        self.command(op)
    }

    /// CLSR: clears the error bits of the status register.
    pub fn clear_status(&mut self) -> Result<(), Error> {
        let op = start::clear_status(self.low_level.room());
        self.low_level.command(op)
    }

    /// WRR of the status register, behind a write enable. It does not wait for the flash: [wait_until_idle](Self::wait_until_idle).
    pub fn write_status(&mut self, sr: StatusRegister1) -> Result<(), Error> {
        let op = start::write_status(sr.0, self.low_level.room());
        self.command(op)
    }

    /// WRR of both registers, behind a write enable. It does not wait for the flash: [wait_until_idle](Self::wait_until_idle). Some bits of the configuration register can
    /// not be set back.
    pub fn write_status_and_config_register(&mut self, sr: StatusRegister1, cr: ConfigRegister1) -> Result<(), Error> {
        let op = start::write_status_and_config_register(sr.0, cr.0, self.low_level.room());
        self.command(op)
    }

    /// RDSR1.
    pub fn read_status_register_1(&mut self) -> Result<StatusRegister1, Error> {
        let op = start::read_status_register_1(self.low_level.room());
        self.low_level.command(op)?;
        let status = StatusRegister1(self.low_level.answer().register());
        self.low_level.set_flash_busy(status.write_in_progress());
        Ok(status)
    }

    /// Reads the status until it shows that the flash is not at work. [FlashBusy](Error::FlashBusy) where the budget for status
    /// transfers, or [wait](Bus::wait), ends before that.
    pub fn wait_until_idle(&mut self) -> Result<(), Error> {
        let most = self.low_level.budget().busy;
        let mut busy = 0;
        while self.read_status_register_1()?.write_in_progress() {
            if busy == most || self.low_level.bus().wait(busy + 1) == ControlFlow::Break(()) {
                return Err(Error::FlashBusy);
            }
            busy += 1;
        }
        Ok(())
    }

    /// RDCR.
    pub fn read_configuration_register(&mut self) -> Result<ConfigRegister1, Error> {
        let op = start::read_configuration_register(self.low_level.room());
        self.command(op)?;
        Ok(ConfigRegister1(self.low_level.answer().register()))
    }

    /// RDID: manufacturer and device.
    pub fn read_rdid_base(&mut self) -> Result<BaseDeviceId, Error> {
        let op = start::read_rdid_base(self.low_level.room());
        self.command(op)?;
        Ok(self.low_level.answer().base_device_id())
    }

    /// RDID, its first eight bytes.
    pub fn read_rdid_extended(&mut self) -> Result<ExtendedDeviceId, Error> {
        let op = start::read_rdid_extended(self.low_level.room());
        self.command(op)?;
        Ok(self.low_level.answer().extended_device_id())
    }

    /// Erases the sector of 65,536 bytes that starts at `addr`, and waits until that is done.
    pub fn erase_sector(&mut self, addr: u32) -> Result<(), Error> {
        let op = start::erase_sector(addr, self.low_level.room());
        self.command(op)
    }

    /// Erases the sectors of a list of up to 256 in its order, and waits for each. The whole list is tested before the first
    /// access: refused, no sector is touched. Gives the finished sectors: all of them, or those before the error.
    pub fn erase_sectors(&mut self, list: &[u32]) -> Result<usize, EraseSectorsError> {
        let ended = self.check_idle().and_then(|()| self.low_level.erase_sectors(list));
        let answer = self.low_level.answer();
        match ended {
            Ok(()) => Ok(answer.counted),
            // Not begun: the answer at hand is an earlier call's.
            Err(error @ (Error::ResetNeeded | Error::FlashBusy)) => {
                Err(EraseSectorsError { error, finished: 0, place: None })
            }
            Err(error) => Err(EraseSectorsError { error, finished: answer.counted, place: place(answer.gives) }),
        }
    }

    /// Programs up to 240 bytes of one page, and waits until that is done.
    pub fn program(&mut self, addr: u32, data: &[u8]) -> Result<(), Error> {
        let op = start::program(addr, data.len(), self.low_level.room());
        self.call(op, data, &mut [])
    }

    /// Programs data in chunks of 128 bytes, each of which must lie in one page, and waits for each. Gives the bytes of the
    /// finished chunks: all of them, or those before the error.
    pub fn write_pages(&mut self, addr: u32, data: &[u8]) -> Result<usize, WritePagesError> {
        let op = start::write_pages(addr, data.len(), self.low_level.room());
        match self.call(op, data, &mut []) {
            Ok(()) => Ok(self.low_level.answer().counted),
            // Not begun: the answer at hand is an earlier call's.
            Err(error @ (Error::ResetNeeded | Error::FlashBusy)) => Err(WritePagesError { error, programmed: 0 }),
            Err(error) => Err(WritePagesError { error, programmed: self.low_level.answer().counted }),
        }
    }

    /// Fills the buffer with the bytes from `addr` on. Where it fails, the bytes whose replies were taken stand in it, and the others
    /// are as before.
    pub fn read_page_read(&mut self, addr: u32, buf: &mut [u8]) -> Result<(), Error> {
        let op = start::read_page_read(addr, buf.len(), self.low_level.room());
        self.call(op, &[], buf)
    }

    /// As [read_page_read](Self::read_page_read), by the fast command; with a dummy byte between address and data where the
    /// latency code asks for one.
    pub fn read_fast_read(&mut self, addr: u32, buf: &mut [u8], dummy_byte: bool) -> Result<(), Error> {
        let op = start::read_fast_read(addr, dummy_byte, buf.len(), self.low_level.room());
        self.call(op, &[], buf)
    }

    /// Refuses what a flash at work would not obey.
    fn check_idle(&self) -> Result<(), Error> {
        let is_busy = self.low_level.flash_busy() && !self.low_level.needs_reset();
        if is_busy { Err(Error::FlashBusy) } else { Ok(()) }
    }

    /// A call that a flash at work would not obey.
    fn call(&mut self, op: Op, data: &[u8], buffer: &mut [u8]) -> Result<(), Error> {
        self.check_idle()?;
        self.low_level.call(op, data, buffer)
    }

    /// The same without data and without a read buffer.
    fn command(&mut self, op: Op) -> Result<(), Error> {
        self.call(op, &[], &mut [])
    }

    /// The controller, for its log, its budget and its bus.
    pub fn low_level(&mut self) -> &mut QspiLowLevel<'l, B> {
        &mut self.low_level
    }

    /// Gives the controller back.
    pub fn release(self) -> QspiLowLevel<'l, B> {
        self.low_level
    }
}

/// The entry that a list is refused for, where it is.
fn place(gives: Gives) -> Option<usize> {
    match gives {
        Gives::Place(at) => Some(at.into()),
        _ => None,
    }
}
