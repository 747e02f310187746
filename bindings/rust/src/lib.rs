//! Safe calls of the verified QSPI flash driver, over the static library `libqspi_abi.a` and its header `include/qspi.h`.
//!
//! Each function runs one call from its start to its end over replies and a log that are lent to it. Nothing here touches
//! hardware: a register read takes the next reply, and each access goes into the log as two words, the offset (plus 0x100 for a
//! read) and the value. Log words past the used ones and bytes that are not read keep what they held.
//!
//! After [RepliesEnded](Answer::RepliesEnded) or [LogFull](Answer::LogFull) a transfer may be open: chip select is then low, and TX
//! words may wait that the next call would send ahead of its own. A write enable after a save that ended so can program its
//! command byte behind the save's data. Reset the controller first; [disable] does not empty it. [room] says how much log a call
//! needs. What [write_pages] promises of a power cut holds of a controller and flash at rest: after [new], not straight after
//! [initialize] and [enable_io_mode]. The repository's README has all premises. The archive is for x86-64 Linux.
//!
//! A write enable that ends well, with the log of its twelve accesses:
//!
//! ```
//! let replies = [0, 0x8008_C4C1, 0x8008_C0C1, 0x10, 0xFF00_0000, 0x8008_C0C1];
//! let mut log = [0; 24];
//! let ran = qspi::write_enable(&replies, &mut log);
//! assert_eq!(ran.answer, qspi::Answer::Done.number());
//! assert_eq!((ran.used, ran.replies), (24, 6));
//! assert_eq!(log[8..10], [0x80, 0x06]); // the command byte goes to the one-byte TX register
//! ```

mod answer;
#[cfg(test)]
mod device;
#[allow(non_camel_case_types)]
mod ffi;
pub mod room;

pub use answer::Answer;

/// Gives a public result and how it comes from its C struct, field by field.
macro_rules! result {
    ($(#[$note:meta])* $name:ident from $raw:ident { $($(#[$says:meta])* $field:ident: $kind:ty),* $(,)? }) => {
        $(#[$note])*
        #[derive(Clone, Copy, Debug, PartialEq, Eq)]
        pub struct $name { $($(#[$says])* pub $field: $kind),* }

        impl From<ffi::$raw> for $name {
            fn from(raw: ffi::$raw) -> Self {
                $name { $($field: raw.$field),* }
            }
        }
    };
}

result! {
    /// How a call ended.
    Ran from qspi_ran {
        /// The number of an [Answer].
        answer: u32,
        /// Log words used.
        used: usize,
        /// Replies used.
        replies: usize,
    }
}

result! {
    /// How [write_pages] ended.
    PagesRan from qspi_pages_ran {
        /// The number of an [Answer].
        answer: u32,
        /// Bytes of the chunks that ended clean, whatever the answer is.
        programmed: usize,
        /// Log words used.
        used: usize,
        /// Replies used.
        replies: usize,
    }
}

result! {
    /// How [erase_sectors] ended.
    SectorsRan from qspi_sectors_ran {
        /// The number of an [Answer].
        answer: u32,
        /// The entry, from 0, that [OutOfRange](Answer::OutOfRange), [Alignment](Answer::Alignment) or
        /// [RepeatedSector](Answer::RepeatedSector) refuses, else 0.
        place: u32,
        /// Sectors that ended clean, whatever the answer is: so many from the list's front.
        finished: usize,
        /// Log words used.
        used: usize,
        /// Replies used.
        replies: usize,
    }
}

result! {
    /// How a call with one value ended.
    ValueRan from qspi_value_ran {
        /// The number of an [Answer].
        answer: u32,
        /// A register's byte, or the clock control word of [initialize]: 0 where the call is not done.
        value: u32,
        /// Log words used.
        used: usize,
        /// Replies used.
        replies: usize,
    }
}

result! {
    /// How [read_rdid_base] ended. Where it is not done its bytes are 0.
    IdRan from qspi_id_ran {
        /// The number of an [Answer].
        answer: u32,
        /// The manufacturer's byte.
        manufacturer_id: u32,
        /// The device id, its first byte high.
        device_id: u32,
        /// 0 where the high byte of `device_id` is a listed code, else 11.
        memory_interface_type: u32,
        /// 0 where the low byte of `device_id` is a listed code, else 11.
        density: u32,
        /// Log words used.
        used: usize,
        /// Replies used.
        replies: usize,
    }
}

result! {
    /// How [read_rdid_extended] ended. Where it is not done its bytes are 0.
    LongIdRan from qspi_long_id_ran {
        /// The number of an [Answer].
        answer: u32,
        /// The manufacturer's byte.
        manufacturer_id: u32,
        /// The device id, its first byte high.
        device_id: u32,
        /// 0 where the high byte of `device_id` is a listed code, else 11.
        memory_interface_type: u32,
        /// 0 where the low byte of `device_id` is a listed code, else 11.
        density: u32,
        /// Length of the CFI part.
        id_cfi_len: u32,
        /// The sector architecture's byte.
        sector_arch_raw: u32,
        /// 0 where `sector_arch_raw` is a listed code, else 11.
        sector_arch: u32,
        /// The family's byte.
        family_id: u32,
        /// The model number, its first byte high.
        model_number: u32,
        /// Log words used.
        used: usize,
        /// Replies used.
        replies: usize,
    }
}

result! {
    /// A clock configuration: zeros where it is refused.
    ClockConfig from qspi_clock_config {
        /// The number of an [Answer].
        answer: u32,
        /// The source's code.
        src_sel: u32,
        /// The reference divisor.
        ref_clk_div: u32,
        /// 1 with loopback, else 0.
        loopback: u32,
        /// 2 to 256.
        baud_rate_divisor: u32,
    }
}

result! {
    /// A linear configuration word: where the answer is 11, the byte that is no listed instruction.
    Preset from qspi_preset {
        /// The number of an [Answer].
        answer: u32,
        /// The word.
        value: u32,
    }
}

/// Clocks in hertz.
#[derive(Clone, Copy, Debug, PartialEq, Eq)]
pub struct Clocks {
    /// The I/O PLL's reference clock.
    pub io_ref_clk: u32,
    /// The ARM PLL's reference clock.
    pub arm_ref_clk: u32,
    /// The DDR PLL's reference clock.
    pub ddr_ref_clk: u32,
    /// The CPU's 1x clock.
    pub cpu_1x_clk: u32,
}

/// Divisors for a reference target and an interface target. `src_sel` is 0 or 1 (I/O PLL), 2 (ARM PLL) or 3 (DDR PLL). The baud
/// rate divisor is the smallest power of two from 2 to 256 with which the interface clock is not above its target, the divided
/// reference clock taken in whole hertz, rounded down; where 256 is too small the answer is [Answer::BaudDivOutOfRange].
pub fn calculate(
    src_sel: u8,
    clocks: Clocks,
    target_qspi_ref_clock: u32,
    target_qspi_interface_clock: u32,
) -> ClockConfig {
    ffi::qspi_calculate(
        src_sel,
        clocks.io_ref_clk,
        clocks.arm_ref_clk,
        clocks.ddr_ref_clk,
        clocks.cpu_1x_clk,
        target_qspi_ref_clock,
        target_qspi_interface_clock,
    )
    .into()
}

/// The divisor for an interface target with loopback.
pub fn calculate_with_loopback(src_sel: u8, clocks: Clocks, target_qspi_interface_clock: u32) -> ClockConfig {
    ffi::qspi_calculate_with_loopback(
        src_sel,
        clocks.io_ref_clk,
        clocks.arm_ref_clk,
        clocks.ddr_ref_clk,
        clocks.cpu_1x_clk,
        target_qspi_interface_clock,
    )
    .into()
}

/// The linear mode configuration of a common device. `operating_mode` is the read instruction's byte.
pub fn linear_mode_config(micron: bool, operating_mode: u8, two_devices: bool) -> Preset {
    ffi::qspi_linear_mode_config(micron, operating_mode, two_devices).into()
}

/// Gives the safe function of a call over replies and a log. The slices live for the whole call, do not overlap (the log and a
/// buffer are lent mutably) and are never null, which is all that the header asks for.
macro_rules! call {
    ($(#[$note:meta])* $name:ident = $raw:ident($($arg:ident: $kind:ty => [$($pass:expr),*]),* $(,)?) -> $ran:ident) => {
        $(#[$note])*
        pub fn $name($($arg: $kind,)* replies: &[u32], log: &mut [u32]) -> $ran {
            // SAFETY: every pointer comes from a slice with its length, and no mutable slice overlaps another.
            unsafe {
                ffi::$raw($($($pass,)*)* replies.as_ptr(), replies.len(), log.as_mut_ptr(), log.len())
            }
            .into()
        }
    };
}

call! {
    /// Configures the controller; the answer's value is the clock control word. `baud_rate_div` is the field's code, 0 for 2 to
    /// 7 for 256; `None` is loopback.
    initialize = qspi_initialize(
        src_sel: u8 => [src_sel],
        ref_clk_div: u8 => [ref_clk_div],
        baud_rate_div: Option<u8> => [baud_rate_div.is_none(), baud_rate_div.unwrap_or(0)],
        phase: bool => [phase],
        polarity: bool => [polarity],
    ) -> ValueRan
}

call! {
    /// Switches to linear addressing mode.
    enable_linear_addressing = qspi_enable_linear_addressing(config: u32 => [config]) -> Ran
}

call! {
    /// Switches to I/O mode.
    enable_io_mode = qspi_enable_io_mode(dual_flash: bool => [dual_flash]) -> Ran
}

call! {
    /// Disables the controller.
    disable = qspi_disable() -> Ran
}

call! {
    /// Clears the status and brings quad bit, latency and write protection to what is asked.
    new = qspi_new(
        set_quad_bit_if_necessary: bool => [set_quad_bit_if_necessary],
        latency: Option<u8> => [latency.is_some(), latency.unwrap_or(0)],
        clear_write_protection: bool => [clear_write_protection],
    ) -> Ran
}

call! {
    /// Sets the block protection bits, 0 to 7.
    set_write_protection = qspi_set_write_protection(protection: u8 => [protection]) -> Ran
}

call! {
    /// Sets the write enable latch.
    write_enable = qspi_write_enable() -> Ran
}

call! {
    /// Clears the write enable latch.
    write_disable = qspi_write_disable() -> Ran
}

call! {
    /// Clears the error bits of the status register.
    clear_status = qspi_clear_status() -> Ran
}

call! {
    /// Writes the status register.
    write_status = qspi_write_status(sr: u8 => [sr]) -> Ran
}

call! {
    /// Writes status and configuration register. Some configuration bits can be set once only.
    write_status_and_config_register = qspi_write_status_and_config_register(sr: u8 => [sr], cr: u8 => [cr]) -> Ran
}

call! {
    /// Reads status register 1.
    read_status_register_1 = qspi_read_status_register_1() -> ValueRan
}

call! {
    /// Reads the configuration register.
    read_configuration_register = qspi_read_configuration_register() -> ValueRan
}

call! {
    /// Reads the id.
    read_rdid_base = qspi_read_rdid_base() -> IdRan
}

call! {
    /// Reads the long id.
    read_rdid_extended = qspi_read_rdid_extended() -> LongIdRan
}

call! {
    /// Erases the sector of 64 KiB at `addr`.
    erase_sector = qspi_erase_sector(addr: u32 => [addr]) -> Ran
}

call! {
    /// Erases the sectors of a list of up to 256 in its order. All of it is tested before the first access, and a refused list
    /// makes none; midway only an error bit and the end of replies or log stop it.
    erase_sectors = qspi_erase_sectors(list: &[u32] => [list.as_ptr(), list.len()]) -> SectorsRan
}

call! {
    /// Programs up to 240 bytes within one page.
    program = qspi_program(addr: u32 => [addr], data: &[u8] => [data.as_ptr(), data.len()]) -> Ran
}

call! {
    /// Programs `data` in chunks of 128 bytes. After a power cut the chunks finished by then are whole and at most the next one
    /// is in doubt, under the premises in the README.
    write_pages = qspi_write_pages(addr: u32 => [addr], data: &[u8] => [data.as_ptr(), data.len()]) -> PagesRan
}

call! {
    /// Reads into `buffer` by the slow read command.
    read_page_read = qspi_read_page_read(
        addr: u32 => [addr],
        buffer: &mut [u8] => [buffer.as_mut_ptr(), buffer.len()],
    ) -> Ran
}

call! {
    /// Reads into `buffer` by the fast read command, with a dummy byte if asked for.
    read_fast_read = qspi_read_fast_read(
        addr: u32 => [addr],
        dummy_byte: bool => [dummy_byte],
        buffer: &mut [u8] => [buffer.as_mut_ptr(), buffer.len()],
    ) -> Ran
}

#[cfg(test)]
mod tests {
    use super::*;

    /// Document 01's write enable, access by access.
    const WRITE_ENABLE: [u32; 24] = [
        0x104,
        0x0000_0000,
        0x100,
        0x8008_C4C1,
        0x00,
        0x8008_C0C1,
        0x14,
        0x0000_0001, //
        0x80,
        0x0000_0006,
        0x100,
        0x8008_C0C1,
        0x00,
        0x8009_C0C1,
        0x104,
        0x0000_0010, //
        0x120,
        0xFF00_0000,
        0x100,
        0x8008_C0C1,
        0x00,
        0x8008_C4C1,
        0x14,
        0x0000_0000,
    ];
    const REPLIES: [u32; 6] = [0, 0x8008_C4C1, 0x8008_C0C1, 0x10, 0xFF00_0000, 0x8008_C0C1];

    #[test]
    fn write_enable_makes_the_twelve_accesses() {
        let mut log = [0xAAAA_AAAA; 26];
        let ran = write_enable(&REPLIES, &mut log);
        assert_eq!(ran, Ran { answer: 0, used: 24, replies: 6 });
        assert_eq!(log[..24], WRITE_ENABLE);
        assert_eq!(log[24..], [0xAAAA_AAAA; 2]);
    }

    #[test]
    fn a_log_without_room_is_full() {
        let ran = write_enable(&[], &mut []);
        assert_eq!(ran, Ran { answer: Answer::LogFull.number(), used: 0, replies: 0 });
    }

    #[test]
    fn a_refused_list_makes_no_access() {
        let refused =
            |answer: Answer, place| SectorsRan { answer: answer.number(), place, finished: 0, used: 0, replies: 0 };
        let mut log = [0xAAAA_AAAA; 26];
        let mut erase = |list: &[u32]| erase_sectors(list, &REPLIES, &mut log);
        assert_eq!(erase(&[0; 257]), refused(Answer::ListTooLong, 0));
        assert_eq!(erase(&[0, 0, 0xFF_0001]), refused(Answer::OutOfRange, 2));
        assert_eq!(erase(&[0, 0, 0x4_0004]), refused(Answer::Alignment, 2));
        assert_eq!(erase(&[0, 0x3_0000, 0]), refused(Answer::RepeatedSector, 2));
        assert_eq!(erase(&[]), refused(Answer::Done, 0));
        assert_eq!(log, [0xAAAA_AAAA; 26]);
    }

    #[test]
    fn a_list_erases_its_sectors_in_order() {
        let replies = REPLIES.repeat(6).into_iter().map(|word| word & 0x00FF_FFFF).collect::<Vec<u32>>();
        let mut log = [0; 144];
        let ran = erase_sectors(&[0x5_0000, 0x3_0000], &replies, &mut log);
        assert_eq!(ran, SectorsRan { answer: 0, place: 0, finished: 2, used: 144, replies: 36 });
        let sent: Vec<u32> = log.chunks(2).filter(|access| access[0] == 0x1C).map(|access| access[1]).collect();
        assert_eq!(sent, [0x0000_05D8, 0x0000_03D8]);
    }

    #[test]
    fn an_empty_read_makes_no_access() {
        let ran = read_page_read(0, &mut [], &[], &mut []);
        assert_eq!(ran, Ran { answer: 0, used: 0, replies: 0 });
    }
}
