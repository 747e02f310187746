//! How much log a call needs: two words for each access.
//!
//! A device is prompt where no RX word waits as the call starts, each look at the status register finds the reply that is due,
//! and the first status read after a program or an erase is clean. On such a device a call makes
//!
//! | call | accesses |
//! |---|---|
//! | [write_pages](crate::write_pages), [program](crate::program), both reads | the functions here |
//! | [erase_sector](crate::erase_sector) | 36 |
//! | [erase_sectors](crate::erase_sectors) | 36 for each sector: [erase_sectors_accesses] |
//! | [new](crate::new) | 12; 36 where something is asked for; 60 where it has to be written |
//! | [set_write_protection](crate::set_write_protection) | 48 |
//! | [write_status](crate::write_status), [write_status_and_config_register](crate::write_status_and_config_register) | 24 |
//! | [read_rdid_extended](crate::read_rdid_extended) | 18 |
//! | the other commands and register reads | 12 |
//! | [enable_io_mode](crate::enable_io_mode), [enable_linear_addressing](crate::enable_linear_addressing), [disable](crate::disable) | 5, 4, 3 |
//! | [initialize](crate::initialize) | 1; 2 with loopback |
//!
//! and [log_words] adds what a slower one takes. A call that is refused makes as many or fewer. Where a log is too short the
//! call ends with [LogFull](crate::Answer::LogFull), and the controller has to be reset before another call.

/// Bytes of a chunk of [write_pages](crate::write_pages).
const CHUNK: u64 = 128;

/// A write enable, the program command without data, the first status read. The command's reply takes two looks: 13 accesses
/// and not 12.
const PROGRAM: u64 = 12 + 13 + 12;

/// Accesses of [program](crate::program). A data word with its reply, after two looks, is four: one a byte.
pub const fn program_accesses(length: u64) -> u64 {
    PROGRAM + length
}

/// Accesses of [write_pages](crate::write_pages): each chunk is a program.
pub const fn write_pages_accesses(length: u64) -> u64 {
    length + PROGRAM * length.div_ceil(CHUNK)
}

/// Accesses of [erase_sectors](crate::erase_sectors): for each sector a write enable, the erase command, the first status read.
pub const fn erase_sectors_accesses(sectors: u64) -> u64 {
    36 * sectors
}

/// Accesses of [read_page_read](crate::read_page_read), and of [read_fast_read](crate::read_fast_read) with or without a dummy
/// byte.
pub const fn read_accesses(length: u64, dummy_byte: bool) -> u64 {
    let dummy = dummy_byte as u64;
    let chunk = 248 - dummy;
    let rest = length % chunk;
    let last = if rest == 0 { 0 } else { 13 + 4 * (rest + dummy).div_ceil(4) };
    length / chunk * 261 + last
}

/// Log words for so many accesses on a prompt device, with `busy` status reads that show the device at work and `looks` further
/// looks at the status register, both over the whole call. A failed program or erase takes two status reads more; an RX word
/// that waits at the start, one look.
pub const fn log_words(accesses: u64, busy: u64, looks: u64) -> u64 {
    2 * (accesses + 12 * busy + 2 * looks)
}

#[cfg(test)]
mod tests;
