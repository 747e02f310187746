//! Stub of the reset registers.

/// Reset of the QSPI and SMC controllers.
#[bitbybit::bitfield(u32, default = 0x0, debug, forbid_overlaps)]
pub struct ResetControlQspiSmc {
    #[bit(1, rw)]
    ref_reset: bool,
    #[bit(0, rw)]
    cpu_1x_reset: bool,
}

/// Reset register access.
#[derive(derive_mmio::Mmio)]
#[repr(C)]
pub struct ResetControlRegisters {
    _gap: [u32; 0xC],
    lqspi: ResetControlQspiSmc,
}

static_assertions::const_assert_eq!(core::mem::offset_of!(ResetControlRegisters, lqspi), 0x30);
