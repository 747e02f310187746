/// Peripheral selection for the AMBA peripheral clock control. The value is the bit position in
/// the `APER_CLK_CTRL` register.
#[derive(Debug, PartialEq, Eq, Clone, Copy)]
pub enum PeriphSelect {
    /// Static memory controller.
    Smc = 24,
    /// Linear Quad-SPI.
    Lqspi = 23,
    /// GPIO.
    Gpio = 22,
    /// UART 1.
    Uart1 = 21,
    /// UART 0.
    Uart0 = 20,
    /// I2C 1.
    I2c1 = 19,
    /// I2C 0.
    I2c0 = 18,
    /// CAN 1.
    Can1 = 17,
    /// CAN 0.
    Can0 = 16,
    /// SPI 1.
    Spi1 = 15,
    /// SPI 0.
    Spi0 = 14,
    /// SDIO 1.
    Sdio1 = 11,
    /// SDIO 0.
    Sdio0 = 10,
    /// Ethernet 1.
    Gem1 = 7,
    /// Ethernet 0.
    Gem0 = 6,
    /// USB 1.
    Usb1 = 3,
    /// USB 0.
    Usb0 = 2,
    /// DMA controller.
    Dma = 0,
}

/// Enable the AMBA peripheral clock, which is required to read the registers of a peripheral
/// block.
#[inline]
pub fn enable_amba_peripheral_clock(select: PeriphSelect) {
    // SAFETY: Only the clock enable bit of the selected peripheral is changed.
    unsafe {
        Slcr::with(|regs| {
            regs.clk_ctrl().modify_aper_clk_ctrl(|mut val| {
                match select {
                    PeriphSelect::Smc => val.set_smc_1x_clk_act(true),
                    PeriphSelect::Lqspi => val.set_lqspi_1x_clk_act(true),
                    PeriphSelect::Gpio => val.set_gpio_1x_clk_act(true),
                    PeriphSelect::Uart1 => val.set_uart_1_1x_clk_act(true),
                    PeriphSelect::Uart0 => val.set_uart_0_1x_clk_act(true),
                    PeriphSelect::I2c1 => val.set_i2c_1_1x_clk_act(true),
                    PeriphSelect::I2c0 => val.set_i2c_0_1x_clk_act(true),
                    PeriphSelect::Can1 => val.set_can_1_1x_clk_act(true),
                    PeriphSelect::Can0 => val.set_can_0_1x_clk_act(true),
                    PeriphSelect::Spi1 => val.set_spi_1_1x_clk_act(true),
                    PeriphSelect::Spi0 => val.set_spi_0_1x_clk_act(true),
                    PeriphSelect::Sdio1 => val.set_sdio_1_1x_clk_act(true),
                    PeriphSelect::Sdio0 => val.set_sdio_0_1x_clk_act(true),
                    PeriphSelect::Gem1 => val.set_gem_1_1x_clk_act(true),
                    PeriphSelect::Gem0 => val.set_gem_0_1x_clk_act(true),
                    PeriphSelect::Usb1 => val.set_usb_1_cpu_1x_clk_act(true),
                    PeriphSelect::Usb0 => val.set_usb_0_cpu_1x_clk_act(true),
                    PeriphSelect::Dma => val.set_dma_cpu_2x_clk_act(true),
                }
                val
            })
        });
    }
}

#[inline]
const fn spi_mode_const_to_cpol_cpha(
    mode: embedded_hal::spi::Mode,
) -> (SpiClockPolarity, SpiClockPhase) {
    match mode {
        embedded_hal::spi::MODE_0 => (
            SpiClockPolarity::QuiescentLow,
            SpiClockPhase::ActiveOutsideOfWord,
        ),
        embedded_hal::spi::MODE_1 => (
            SpiClockPolarity::QuiescentLow,
            SpiClockPhase::InactiveOutsideOfWord,
        ),
        embedded_hal::spi::MODE_2 => (
            SpiClockPolarity::QuiescentHigh,
            SpiClockPhase::ActiveOutsideOfWord,
        ),
        embedded_hal::spi::MODE_3 => (
            SpiClockPolarity::QuiescentHigh,
            SpiClockPhase::InactiveOutsideOfWord,
        ),
    }
}
