// Made by tools/erase from crates/zynq7000/src/slcr/clocks.rt; a change belongs there.
//! The clock control word of a peripheral with one clock output. It is returned to the caller and
//! never written here: SLCR access is outside the port.

// Clock source selection for IO peripheral clocks.
#[derive(Clone, Copy, Debug, PartialEq, Eq)]
pub enum SrcSelIo {
    // IO PLL output.
    IoPll = 0,
    // IO PLL output, alternate encoding.
    IoPllAlt = 1,
    // ARM PLL output.
    ArmPll = 2,
    // DDR PLL output.
    DdrPll = 3,
}

impl SrcSelIo {
    // The code of the clock control register's field.
    pub fn raw_value(self) -> u32 {
        self as u32
    }
}

// Clock control register for a peripheral with a single clock output: the lowest bit of each field.
#[derive(Clone, Copy, Debug, PartialEq, Eq)]
pub struct SingleCommonPeriphIoClockControl(pub u32);

impl SingleCommonPeriphIoClockControl {
    // Six bits: clock divisor.
    pub const DIVISOR: u32 = 8;
    // Two bits: clock source selection.
    pub const SRCSEL: u32 = 4;
    // Clock enable.
    pub const CLK_ACT: u32 = 0;

    // The lowest bits of the fields, from bit 31 down.
    pub fn field_bits() -> [u32; 3] {
        [Self::DIVISOR, Self::SRCSEL, Self::CLK_ACT]
    }
}
