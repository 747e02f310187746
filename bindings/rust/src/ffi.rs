//! The declarations of `include/qspi.h`. A test holds them against the header, by text and by the C compiler's layout.

/// Gives a C struct, and the names of its fields for the layout test.
macro_rules! c_struct {
    ($(#[$note:meta])* $name:ident { $($field:ident: $kind:ty),* $(,)? }) => {
        $(#[$note])*
        #[repr(C)]
        #[derive(Clone, Copy)]
        pub(crate) struct $name { $(pub(crate) $field: $kind),* }

        #[cfg(test)]
        impl $name {
            /// Each field with its offset.
            const FIELDS: &[(&str, usize)] = &[$((stringify!($field), std::mem::offset_of!($name, $field))),*];
        }
    };
}

c_struct!(qspi_ran { answer: u32, used: usize, replies: usize });
c_struct!(qspi_pages_ran { answer: u32, programmed: usize, used: usize, replies: usize });
c_struct!(qspi_sectors_ran { answer: u32, place: u32, finished: usize, used: usize, replies: usize });
c_struct!(qspi_value_ran { answer: u32, value: u32, used: usize, replies: usize });
c_struct!(qspi_id_ran {
    answer: u32,
    manufacturer_id: u32,
    device_id: u32,
    memory_interface_type: u32,
    density: u32,
    used: usize,
    replies: usize,
});
c_struct!(qspi_long_id_ran {
    answer: u32,
    manufacturer_id: u32,
    device_id: u32,
    memory_interface_type: u32,
    density: u32,
    id_cfi_len: u32,
    sector_arch_raw: u32,
    sector_arch: u32,
    family_id: u32,
    model_number: u32,
    used: usize,
    replies: usize,
});
c_struct!(qspi_clock_config { answer: u32, src_sel: u32, ref_clk_div: u32, loopback: u32, baud_rate_divisor: u32 });
c_struct!(qspi_preset { answer: u32, value: u32 });

unsafe extern "C" {
    pub(crate) safe fn qspi_calculate(
        src_sel: u8,
        io_ref_clk: u32,
        arm_ref_clk: u32,
        ddr_ref_clk: u32,
        cpu_1x_clk: u32,
        target_qspi_ref_clock: u32,
        target_qspi_interface_clock: u32,
    ) -> qspi_clock_config;
    pub(crate) safe fn qspi_calculate_with_loopback(
        src_sel: u8,
        io_ref_clk: u32,
        arm_ref_clk: u32,
        ddr_ref_clk: u32,
        cpu_1x_clk: u32,
        target_qspi_interface_clock: u32,
    ) -> qspi_clock_config;
    pub(crate) safe fn qspi_linear_mode_config(micron: bool, operating_mode: u8, two_devices: bool) -> qspi_preset;
    pub(crate) fn qspi_initialize(
        src_sel: u8,
        ref_clk_div: u8,
        loopback: bool,
        baud_rate_div: u8,
        phase: bool,
        polarity: bool,
        replies: *const u32,
        replies_len: usize,
        log: *mut u32,
        log_len: usize,
    ) -> qspi_value_ran;
    pub(crate) fn qspi_enable_linear_addressing(
        config: u32,
        replies: *const u32,
        replies_len: usize,
        log: *mut u32,
        log_len: usize,
    ) -> qspi_ran;
    pub(crate) fn qspi_enable_io_mode(
        dual_flash: bool,
        replies: *const u32,
        replies_len: usize,
        log: *mut u32,
        log_len: usize,
    ) -> qspi_ran;
    pub(crate) fn qspi_disable(replies: *const u32, replies_len: usize, log: *mut u32, log_len: usize) -> qspi_ran;
    pub(crate) fn qspi_new(
        set_quad_bit_if_necessary: bool,
        set_latency: bool,
        latency: u8,
        clear_write_protection: bool,
        replies: *const u32,
        replies_len: usize,
        log: *mut u32,
        log_len: usize,
    ) -> qspi_ran;
    pub(crate) fn qspi_set_write_protection(
        protection: u8,
        replies: *const u32,
        replies_len: usize,
        log: *mut u32,
        log_len: usize,
    ) -> qspi_ran;
    pub(crate) fn qspi_write_enable(replies: *const u32, replies_len: usize, log: *mut u32, log_len: usize)
    -> qspi_ran;
    pub(crate) fn qspi_write_disable(
        replies: *const u32,
        replies_len: usize,
        log: *mut u32,
        log_len: usize,
    ) -> qspi_ran;
    pub(crate) fn qspi_clear_status(replies: *const u32, replies_len: usize, log: *mut u32, log_len: usize)
    -> qspi_ran;
    pub(crate) fn qspi_write_status(
        sr: u8,
        replies: *const u32,
        replies_len: usize,
        log: *mut u32,
        log_len: usize,
    ) -> qspi_ran;
    pub(crate) fn qspi_write_status_and_config_register(
        sr: u8,
        cr: u8,
        replies: *const u32,
        replies_len: usize,
        log: *mut u32,
        log_len: usize,
    ) -> qspi_ran;
    pub(crate) fn qspi_read_status_register_1(
        replies: *const u32,
        replies_len: usize,
        log: *mut u32,
        log_len: usize,
    ) -> qspi_value_ran;
    pub(crate) fn qspi_read_configuration_register(
        replies: *const u32,
        replies_len: usize,
        log: *mut u32,
        log_len: usize,
    ) -> qspi_value_ran;
    pub(crate) fn qspi_read_rdid_base(
        replies: *const u32,
        replies_len: usize,
        log: *mut u32,
        log_len: usize,
    ) -> qspi_id_ran;
    pub(crate) fn qspi_read_rdid_extended(
        replies: *const u32,
        replies_len: usize,
        log: *mut u32,
        log_len: usize,
    ) -> qspi_long_id_ran;
    pub(crate) fn qspi_erase_sector(
        addr: u32,
        replies: *const u32,
        replies_len: usize,
        log: *mut u32,
        log_len: usize,
    ) -> qspi_ran;
    pub(crate) fn qspi_erase_sectors(
        list: *const u32,
        list_len: usize,
        replies: *const u32,
        replies_len: usize,
        log: *mut u32,
        log_len: usize,
    ) -> qspi_sectors_ran;
    pub(crate) fn qspi_program(
        addr: u32,
        data: *const u8,
        data_len: usize,
        replies: *const u32,
        replies_len: usize,
        log: *mut u32,
        log_len: usize,
    ) -> qspi_ran;
    pub(crate) fn qspi_write_pages(
        addr: u32,
        data: *const u8,
        data_len: usize,
        replies: *const u32,
        replies_len: usize,
        log: *mut u32,
        log_len: usize,
    ) -> qspi_pages_ran;
    pub(crate) fn qspi_read_page_read(
        addr: u32,
        buffer: *mut u8,
        buffer_len: usize,
        replies: *const u32,
        replies_len: usize,
        log: *mut u32,
        log_len: usize,
    ) -> qspi_ran;
    pub(crate) fn qspi_read_fast_read(
        addr: u32,
        dummy_byte: bool,
        buffer: *mut u8,
        buffer_len: usize,
        replies: *const u32,
        replies_len: usize,
        log: *mut u32,
        log_len: usize,
    ) -> qspi_ran;
}

#[cfg(test)]
pub(crate) mod tests;
