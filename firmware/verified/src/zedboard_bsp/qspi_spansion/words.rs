// Made by tools/erase from crates/zedboard_bsp/src/qspi_spansion/words.rt; a change belongs there.
//! The words of commands and replies: bytes on the wire, the first in the word's lowest byte.

use crate::zedboard_bsp::qspi_spansion::RegisterId;

// The word of four bytes in the order sent.
pub fn data_word(a: u8, b: u8, c: u8, d: u8) -> u32 {
    u32::from_le_bytes([a, b, c, d])
}

// A command without an address.
pub fn command_only(command: RegisterId) -> u32 {
    command.raw_value() as u32
}

// A command and the low 24 bits of its address, high byte first.
pub fn command_word(command: RegisterId, addr: u32) -> u32 {
    let [_, high, middle, low] = addr.to_be_bytes();
    data_word(command.raw_value(), high, middle, low)
}

// WRR of the status register alone.
pub fn write_status_word(sr: u8) -> u32 {
    data_word(RegisterId::WriteRegisters.raw_value(), sr, 0, 0)
}

// WRR of the status and the configuration register.
pub fn write_registers_word(sr: u8, cr: u8) -> u32 {
    data_word(RegisterId::WriteRegisters.raw_value(), sr, cr, 0)
}

// The status or configuration byte of a reply: little-endian, so the second byte received is on top.
pub fn top_byte(reply: u32) -> u8 {
    reply.to_le_bytes()[3]
}

// The bytes of a word in the order sent or received.
pub fn bytes_of(word: u32) -> [u8; 4] {
    word.to_le_bytes()
}
