//! What the driver needs of the hardware: one register access at a time, and a place to wait.

use core::fmt;
use core::ops::ControlFlow;
use verified::zynq7000::qspi::QSPI_BASE_ADDR;

/// The registers of the QSPI block, by their offsets. A call makes its accesses one after the other, each as it is due.
pub trait Bus {
    /// Reads a register.
    fn read(&mut self, offset: u8) -> u32;

    /// Writes a register.
    fn write(&mut self, offset: u8, value: u32);

    /// The flash is at work: `busy` status transfers in a row have shown it so since the program or erase at hand began. Chip
    /// select is high, and the next transfer asks again. Wait here, so that budget and log stay small: twice as long each time
    /// suits both a program and an erase. `Break` ends the call with [RepliesEnded](crate::Error::RepliesEnded), as the end of
    /// the budget does.
    fn wait(&mut self, busy: u32) -> ControlFlow<()> {
        let _ = busy;
        ControlFlow::Continue(())
    }
}

impl<B: Bus + ?Sized> Bus for &mut B {
    fn read(&mut self, offset: u8) -> u32 {
        (**self).read(offset)
    }

    fn write(&mut self, offset: u8, value: u32) {
        (**self).write(offset, value);
    }

    fn wait(&mut self, busy: u32) -> ControlFlow<()> {
        (**self).wait(busy)
    }
}

/// A bus with a way to wait.
pub struct Waiting<B, W> {
    /// Makes the accesses.
    pub bus: B,
    /// What [Bus::wait] does.
    pub wait: W,
}

impl<B, W> fmt::Debug for Waiting<B, W> {
    fn fmt(&self, f: &mut fmt::Formatter<'_>) -> fmt::Result {
        f.debug_struct("Waiting").finish_non_exhaustive()
    }
}

impl<B: Bus, W: FnMut(u32) -> ControlFlow<()>> Bus for Waiting<B, W> {
    fn read(&mut self, offset: u8) -> u32 {
        self.bus.read(offset)
    }

    fn write(&mut self, offset: u8, value: u32) {
        self.bus.write(offset, value);
    }

    fn wait(&mut self, busy: u32) -> ControlFlow<()> {
        (self.wait)(busy)
    }
}

/// The register block in memory.
#[derive(Debug)]
pub struct Registers {
    block: usize,
}

impl Registers {
    /// The block at an address.
    ///
    /// # Safety
    ///
    /// 256 bytes from `block` on are the registers of a QSPI controller, mapped as device memory, for as long as the value
    /// lives, and `block` is a multiple of 4. What the driver promises holds where nobody else accesses them meanwhile.
    pub const unsafe fn new(block: usize) -> Self {
        Registers { block }
    }

    /// The block where the Zynq-7000 has it.
    ///
    /// # Safety
    ///
    /// As for [new](Registers::new): the program runs on a Zynq-7000 that maps its peripherals one to one.
    pub const unsafe fn zynq() -> Self {
        // SAFETY: the caller says that this is a Zynq-7000, whose QSPI block stands there.
        unsafe { Registers::new(QSPI_BASE_ADDR as usize) }
    }

    /// Registers have four bytes: the low two bits of an offset do not count, so that every access is aligned and inside the block.
    fn register(&self, offset: u8) -> *mut u32 {
        (self.block + (offset & 0xFC) as usize) as *mut u32
    }
}

impl Bus for Registers {
    fn read(&mut self, offset: u8) -> u32 {
        // SAFETY: `new` was told that a register stands there, and `register` gives none outside of the block.
        unsafe { self.register(offset).read_volatile() }
    }

    fn write(&mut self, offset: u8, value: u32) {
        // SAFETY: as for `read`.
        unsafe { self.register(offset).write_volatile(value) }
    }
}
