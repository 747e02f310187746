//! NOT PUBLISHED: stub of a module that the published `mod.rs` names and that is not at hand. As a child of it, it can
//! fill the private fields.

use super::{ArmClocks, Clocks, CpuClockRatio, DdrClocks, Hertz, IoClocks};

const UNUSED: Hertz = Hertz::from_raw(0);

/// Clocks with the four numbers that `ClockConfig` looks at; all others are 0.
pub fn clocks(io_ref_clk: Hertz, arm_ref_clk: Hertz, ddr_ref_clk: Hertz, cpu_1x_clk: Hertz) -> Clocks {
    Clocks {
        ps_clk: UNUSED,
        arm_pll_out: arm_ref_clk,
        io_pll_out: io_ref_clk,
        ddr_pll_out: ddr_ref_clk,
        arm: ArmClocks {
            ref_clk: arm_ref_clk,
            ratio: CpuClockRatio::SixToTwoToOne,
            cpu_1x_clk,
            cpu_2x_clk: UNUSED,
            cpu_3x2x_clk: UNUSED,
            cpu_6x4x_clk: UNUSED,
        },
        ddr: DdrClocks { ref_clk: ddr_ref_clk, ddr_3x_clk: UNUSED, ddr_2x_clk: UNUSED },
        io: IoClocks {
            ref_clk: io_ref_clk,
            smc_clk: UNUSED,
            qspi_clk: UNUSED,
            sdio_clk: UNUSED,
            uart_clk: UNUSED,
            spi_clk: UNUSED,
            can_clk: UNUSED,
            pcap_2x_clk: UNUSED,
            trace_clk: None,
        },
        pl: [UNUSED; 4],
    }
}
