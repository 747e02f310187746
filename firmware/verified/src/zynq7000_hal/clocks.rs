// Made by tools/erase from crates/zynq7000_hal/src/clocks.rt; a change belongs there.
//! The clock frequencies that the QSPI clock calculation looks at.

use crate::zynq7000::slcr::clocks::SrcSelIo;

// Frequencies in whole hertz.
#[derive(Clone, Copy, Debug, PartialEq, Eq)]
pub struct Clocks {
    // Reference clock of the I/O PLL.
    pub io_ref_clk: u32,
    // Reference clock of the ARM PLL.
    pub arm_ref_clk: u32,
    // Reference clock of the DDR PLL.
    pub ddr_ref_clk: u32,
    pub cpu_1x_clk: u32,
}

impl Clocks {
    // The clock of a source.
    pub fn ref_clk(self, src_sel: SrcSelIo) -> u32 {
        match src_sel {
            SrcSelIo::IoPll | SrcSelIo::IoPllAlt => self.io_ref_clk,
            SrcSelIo::ArmPll => self.arm_ref_clk,
            SrcSelIo::DdrPll => self.ddr_ref_clk,
        }
    }
}
