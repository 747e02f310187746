/* The QSPI flash driver as a C library: link target/staticlib/libqspi_abi.a (made by `tools/staticlib`).
 *
 * Each function runs one call from its start to its end over replies and a log that are lent to it. Nothing here touches
 * hardware: a register read takes the next reply, and each access goes into the log as two words, the offset (plus 0x100 for a
 * read) and the value. Log words past the used ones and bytes that are not read keep what they held.
 *
 * `answer` is 0 where the call is done, else the number of document 01 or 02: 1 OutOfRange, 2 Alignment, 3 DataTooLarge,
 * 4 NotAligned, 5 CrossesPageBoundary, 6 RefDivOutOfRange, 7 RefClockSmallerThanCpu1xClock, 8 ZeroClock, 9 TargetTooFast,
 * 10 AddressSpan, 11 UnknownCode, 12 FieldTooWide, 21 EraseErrorBitSet, 22 ProgrammingErrorBitSet, 23 RepliesEnded,
 * 24 LogFull, 31 BaudDivOutOfRange, 32 RepeatedSector, 33 ListTooLong. Any value of any argument gets one of these answers.
 *
 * After 23 or 24 a transfer may be open: chip select is then low, and TX words may wait that the next call would send ahead of
 * its own. A write enable after a save that ended so can program its command byte behind the save's data. Reset the controller
 * first (README, "Before you rely on it"); qspi_disable does not empty it.
 *
 * What qspi_write_pages promises of a power cut holds of a controller and flash at rest: after qspi_new, not straight after
 * qspi_initialize and qspi_enable_io_mode. README has all premises.
 *
 * A slice is a pointer and a number of elements. The pointer is not null and aligned, also where the number is 0, and slices
 * of one call do not overlap.
 *
 * The archive is for x86-64 Linux (x86-64-v2: processors with SSE 4.2); it is no build for the Zynq.
 */
#ifndef QSPI_H
#define QSPI_H

#include <stdbool.h>
#include <stddef.h>
#include <stdint.h>

#ifdef __cplusplus
extern "C" {
#endif

/* How much log a call needs: two words for each access. A device is prompt where no RX word waits as the call starts, each look
 * at register 04 finds the reply that is due, and the first status read after a program or an erase is clean. On such a device
 * the calls make so many accesses:
 *     program, write_pages, reads                        by the macros; a chunk of 128 bytes of write_pages takes 165
 *     erase_sector                                       36
 *     erase_sectors                                      36 for each sector, by the macro
 *     new                                                12; 36 where something is asked for; 60 where it has to be written
 *     set_write_protection                               48
 *     write_status, write_status_and_config_register     24
 *     read_rdid_extended                                 18
 *     the other commands and register reads              12
 *     enable_io_mode, enable_linear_addressing, disable  5, 4, 3
 *     initialize                                         1; 2 with loopback
 * A refused call makes as many or fewer.
 *
 * QSPI_LOG_WORDS(accesses, busy, looks) are the log words for such a number on a slower device: with `busy` status reads that
 * show it at work, 12 accesses each, and `looks` further looks at 04, one or two each; both are counted over the whole call. An
 * error bit costs as much as two of the first, an RX word that waits at the start as much as one of the second. How many there
 * are is the device's choice. Where the log is too short the call ends with 24.
 *
 * The macros give a uint64_t, constant where the arguments are, and use an argument more than once. They hold for lengths up to
 * 4294967296; no call accepts more. */
#define QSPI_PROGRAM_ACCESSES(length) ((uint64_t)37 + (uint64_t)(length))
#define QSPI_WRITE_PAGES_ACCESSES(length) ((uint64_t)(length) + ((uint64_t)(length) + 127) / 128 * 37)
#define QSPI_ERASE_SECTORS_ACCESSES(sectors) ((uint64_t)(sectors) * 36)
#define QSPI_READ_ACCESSES(length, dummy_byte) ((dummy_byte) ? QSPI_READS_OF(length, 1) : QSPI_READS_OF(length, 0))
#define QSPI_LOG_WORDS(accesses, busy, looks) (((uint64_t)(accesses) + (uint64_t)(busy) * 12 + (uint64_t)(looks) * 2) * 2)

/* Chunks of 248 bytes, or 247 and the dummy byte, 261 accesses each; a shorter one has 13 and 4 for each word that it reads. */
#define QSPI_READS_OF(length, dummy) \
    ((uint64_t)(length) / (248 - (dummy)) * 261 + QSPI_READ_REST((uint64_t)(length) % (248 - (dummy)), dummy))
#define QSPI_READ_REST(rest, dummy) ((rest) == 0 ? 0 : 13 + ((rest) + (dummy) + 3) / 4 * 4)

/* How a call ended: log words and replies that it used. */
struct qspi_ran {
    uint32_t answer;
    size_t used;
    size_t replies;
};

/* `programmed` counts the bytes of the chunks that ended clean, whatever the answer is. */
struct qspi_pages_ran {
    uint32_t answer;
    size_t programmed;
    size_t used;
    size_t replies;
};

/* `place` is the entry, from 0, that 1, 2 or 32 refuses, else 0. `finished` counts the sectors whose status loop ended clean,
 * the closing of its last transfer included, whatever the answer is: so many from the list's front. */
struct qspi_sectors_ran {
    uint32_t answer;
    uint32_t place;
    size_t finished;
    size_t used;
    size_t replies;
};

/* `value` is a register's byte, or the clock control word of `initialize`: 0 where the call is not done. */
struct qspi_value_ran {
    uint32_t answer;
    uint32_t value;
    size_t used;
    size_t replies;
};

/* An id. Where the call is not done its bytes are 0. `memory_interface_type` and `density` are 0 where the high and the low
 * byte of `device_id` are listed codes, else 11. */
struct qspi_id_ran {
    uint32_t answer;
    uint32_t manufacturer_id;
    uint32_t device_id;
    uint32_t memory_interface_type;
    uint32_t density;
    size_t used;
    size_t replies;
};

/* The long id. `sector_arch` is 0 where `sector_arch_raw` is a listed code, else 11; the model number's first byte is its high
 * byte. */
struct qspi_long_id_ran {
    uint32_t answer;
    uint32_t manufacturer_id;
    uint32_t device_id;
    uint32_t memory_interface_type;
    uint32_t density;
    uint32_t id_cfi_len;
    uint32_t sector_arch_raw;
    uint32_t sector_arch;
    uint32_t family_id;
    uint32_t model_number;
    size_t used;
    size_t replies;
};

/* A clock configuration: zeros where it is refused. `baud_rate_divisor` is 2 to 256. */
struct qspi_clock_config {
    uint32_t answer;
    uint32_t src_sel;
    uint32_t ref_clk_div;
    uint32_t loopback;
    uint32_t baud_rate_divisor;
};

/* A linear configuration word: where the answer is 11, the byte that is no listed instruction. */
struct qspi_preset {
    uint32_t answer;
    uint32_t value;
};

/* Clocks in hertz. `src_sel` is 0 or 1 (I/O PLL), 2 (ARM PLL) or 3 (DDR PLL), above it 12. Of qspi_calculate the baud rate
 * divisor is the smallest power of two from 2 to 256 with which the interface clock is not above its target, the divided
 * reference clock taken in whole hertz, rounded down; where 256 is too small the answer is 31. */
struct qspi_clock_config qspi_calculate(uint8_t src_sel, uint32_t io_ref_clk, uint32_t arm_ref_clk, uint32_t ddr_ref_clk,
                                        uint32_t cpu_1x_clk, uint32_t target_qspi_ref_clock,
                                        uint32_t target_qspi_interface_clock);
struct qspi_clock_config qspi_calculate_with_loopback(uint8_t src_sel, uint32_t io_ref_clk, uint32_t arm_ref_clk,
                                                      uint32_t ddr_ref_clk, uint32_t cpu_1x_clk,
                                                      uint32_t target_qspi_interface_clock);

/* `operating_mode` is the read instruction's byte: 03, 0B, 3B, 6B, BB or EB, any other 11. */
struct qspi_preset qspi_linear_mode_config(bool micron, uint8_t operating_mode, bool two_devices);

/* `baud_rate_div` is the field's code, 0 for 2 to 7 for 256, above it 12; with loopback the divisor is 2 whatever the code. */
struct qspi_value_ran qspi_initialize(uint8_t src_sel, uint8_t ref_clk_div, bool loopback, uint8_t baud_rate_div, bool phase,
                                      bool polarity, const uint32_t *replies, size_t replies_len, uint32_t *log,
                                      size_t log_len);
struct qspi_ran qspi_enable_linear_addressing(uint32_t config, const uint32_t *replies, size_t replies_len, uint32_t *log,
                                              size_t log_len);
struct qspi_ran qspi_enable_io_mode(bool dual_flash, const uint32_t *replies, size_t replies_len, uint32_t *log,
                                    size_t log_len);
struct qspi_ran qspi_disable(const uint32_t *replies, size_t replies_len, uint32_t *log, size_t log_len);

/* `latency` is looked at where `set_latency` is true. */
struct qspi_ran qspi_new(bool set_quad_bit_if_necessary, bool set_latency, uint8_t latency, bool clear_write_protection,
                         const uint32_t *replies, size_t replies_len, uint32_t *log, size_t log_len);
struct qspi_ran qspi_set_write_protection(uint8_t protection, const uint32_t *replies, size_t replies_len, uint32_t *log,
                                          size_t log_len);
struct qspi_ran qspi_write_enable(const uint32_t *replies, size_t replies_len, uint32_t *log, size_t log_len);
struct qspi_ran qspi_write_disable(const uint32_t *replies, size_t replies_len, uint32_t *log, size_t log_len);
struct qspi_ran qspi_clear_status(const uint32_t *replies, size_t replies_len, uint32_t *log, size_t log_len);
struct qspi_ran qspi_write_status(uint8_t sr, const uint32_t *replies, size_t replies_len, uint32_t *log, size_t log_len);
struct qspi_ran qspi_write_status_and_config_register(uint8_t sr, uint8_t cr, const uint32_t *replies, size_t replies_len,
                                                      uint32_t *log, size_t log_len);
struct qspi_value_ran qspi_read_status_register_1(const uint32_t *replies, size_t replies_len, uint32_t *log, size_t log_len);
struct qspi_value_ran qspi_read_configuration_register(const uint32_t *replies, size_t replies_len, uint32_t *log,
                                                       size_t log_len);
struct qspi_id_ran qspi_read_rdid_base(const uint32_t *replies, size_t replies_len, uint32_t *log, size_t log_len);
struct qspi_long_id_ran qspi_read_rdid_extended(const uint32_t *replies, size_t replies_len, uint32_t *log, size_t log_len);

struct qspi_ran qspi_erase_sector(uint32_t addr, const uint32_t *replies, size_t replies_len, uint32_t *log, size_t log_len);

/* Erases the sectors of a list in its order. All of it is tested before the first access: 33 above 256 entries; then the
 * first that meets 1 or 2, as for one sector; then 32 for the first that repeats an earlier one. Midway only 21, 23 and 24
 * stop it. */
struct qspi_sectors_ran qspi_erase_sectors(const uint32_t *list, size_t list_len, const uint32_t *replies, size_t replies_len,
                                           uint32_t *log, size_t log_len);

struct qspi_ran qspi_program(uint32_t addr, const uint8_t *data, size_t data_len, const uint32_t *replies, size_t replies_len,
                             uint32_t *log, size_t log_len);
struct qspi_pages_ran qspi_write_pages(uint32_t addr, const uint8_t *data, size_t data_len, const uint32_t *replies,
                                       size_t replies_len, uint32_t *log, size_t log_len);

/* The bytes read go into `buffer`. */
struct qspi_ran qspi_read_page_read(uint32_t addr, uint8_t *buffer, size_t buffer_len, const uint32_t *replies,
                                    size_t replies_len, uint32_t *log, size_t log_len);
struct qspi_ran qspi_read_fast_read(uint32_t addr, bool dummy_byte, uint8_t *buffer, size_t buffer_len,
                                    const uint32_t *replies, size_t replies_len, uint32_t *log, size_t log_len);

#ifdef __cplusplus
}
#endif

#endif
