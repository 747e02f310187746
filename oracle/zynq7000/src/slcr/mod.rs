//! Stub of the SLCR block: the registers that the published files name, at the offsets of UG585, appendix B.

pub use clocks::{ClockControlRegisters, MmioClockControlRegisters};

#[path = "../../../published/zynq7000/src/slcr/clocks.rs"]
#[rustfmt::skip]
pub mod clocks;
pub mod mio;
pub mod reset;

/// Base address of the SLCR block.
pub const SLCR_BASE_ADDR: usize = 0xF800_0000;
/// Offset of the clock registers.
pub const CLOCK_CONTROL_OFFSET: usize = 0x100;

/// SLCR register access.
#[derive(derive_mmio::Mmio)]
#[repr(C)]
pub struct Registers {
    _scl: u32,
    #[mmio(Write)]
    lock: u32,
    #[mmio(Write)]
    unlock: u32,
    _gap0: [u32; 0x3D],
    #[mmio(Inner)]
    clk_ctrl: ClockControlRegisters,
    _gap1: [u32; 0xE],
    #[mmio(Inner)]
    reset_ctrl: reset::ResetControlRegisters,
}

static_assertions::const_assert_eq!(core::mem::offset_of!(Registers, clk_ctrl), CLOCK_CONTROL_OFFSET);
static_assertions::const_assert_eq!(core::mem::offset_of!(Registers, reset_ctrl), 0x200);

impl Registers {
    /// The SLCR block at its address.
    ///
    /// # Safety
    ///
    /// As for the published blocks.
    pub const unsafe fn new_mmio_fixed() -> MmioRegisters<'static> {
        // SAFETY: Upheld by the caller.
        unsafe { Self::new_mmio_at(SLCR_BASE_ADDR) }
    }
}
