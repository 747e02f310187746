//! The board's first serial line, for text that goes out.
use core::fmt::{Arguments, Result, Write};

const UART_0: usize = 0xE000_0000;
const CONTROL: usize = 0x00;
const MODE: usize = 0x04;
const STATUS: usize = 0x2C;
const FIFO: usize = 0x30;

const TRANSMIT: u32 = 0x14;
const NO_PARITY: u32 = 0x20;
const TX_FULL: u32 = 0x10;

/// The serial line; a `\n` ends a line.
pub struct Uart;

impl Write for Uart {
    fn write_str(&mut self, text: &str) -> Result {
        for byte in text.bytes() {
            while read(STATUS) & TX_FULL != 0 {}
            write(FIFO, byte.into());
        }
        Ok(())
    }
}

/// Prints a line.
#[macro_export]
macro_rules! say {
    ($($text:tt)*) => { $crate::uart::print(format_args!("{}\n", format_args!($($text)*))) };
}

pub fn print(text: Arguments) {
    // Only a `Display` that is at fault could fail: the line takes every byte.
    let _ = Uart.write_fmt(text);
}

/// Lets the line send.
pub fn enable() {
    write(CONTROL, TRANSMIT);
    write(MODE, NO_PARITY);
}

fn read(offset: usize) -> u32 {
    // SAFETY: only this module's offsets come here, and these are registers of the board's UART 0.
    unsafe { core::ptr::read_volatile((UART_0 + offset) as *const u32) }
}

fn write(offset: usize, value: u32) {
    // SAFETY: as for `read`; no such write touches memory.
    unsafe { core::ptr::write_volatile((UART_0 + offset) as *mut u32, value) }
}
