//! The register layer of the benchmark: the same two entry functions and the same log as `recorder`, made to cost as
//! little as a log can. It has no source, no growing vector and no stop of its own: replies and log are lent by [arm],
//! and the end of either is a plain panic. Within a transfer that ends the process, as the guard's `Drop` panics too.

use std::cell::Cell;

/// Base address of the QSPI block.
pub const QSPI: usize = 0xE000_D000;
/// Added to the offset in the log's first word for a read.
pub const READ: u32 = 0x100;

/// Address of LQSPI_CLK_CTRL, the one SLCR register whose word is kept.
const LQSPI_CLK_CTRL: usize = 0xF800_014C;

/// Places in the lent slices. The starts are kept for [used].
struct Lent {
    reply: Cell<*const u32>,
    replies_end: Cell<*const u32>,
    replies_start: Cell<*const u32>,
    log: Cell<*mut u32>,
    log_end: Cell<*mut u32>,
    log_start: Cell<*mut u32>,
    lqspi_clk_ctrl: Cell<u32>,
}

thread_local! {
    /// Without a destructor and with a constant start, so that an access is a plain load.
    static LENT: Lent = const {
        Lent {
            reply: Cell::new(std::ptr::null()),
            replies_end: Cell::new(std::ptr::null()),
            replies_start: Cell::new(std::ptr::null()),
            log: Cell::new(std::ptr::null_mut()),
            log_end: Cell::new(std::ptr::null_mut()),
            log_start: Cell::new(std::ptr::null_mut()),
            lqspi_clk_ctrl: Cell::new(0),
        }
    };
}

/// One read of a register, for the accessors.
#[inline(always)]
pub fn read(base: usize, offset: u32) -> u32 {
    if base != QSPI {
        return 0;
    }
    LENT.with(|lent| {
        let reply = lent.reply.get();
        lent.need_room();
        if reply == lent.replies_end.get() {
            replies_ended();
        }
        // SAFETY: the place is inside the lent replies, as it is not their end.
        let value = unsafe { *reply };
        lent.reply.set(reply.wrapping_add(1));
        lent.log(offset + READ, value);
        value
    })
}

/// One write of a register, for the accessors.
#[inline(always)]
pub fn write(base: usize, offset: u32, value: u32) {
    if base != QSPI {
        return write_slcr(base, offset, value);
    }
    LENT.with(|lent| {
        lent.need_room();
        lent.log(offset, value);
    });
}

/// Lends replies and log to the thread's accesses, from their starts on. A log of odd length leaves its last word.
///
/// # Safety
///
/// Both slices stay valid, and nobody else uses the log, until the next `arm` or for as long as the thread makes
/// accesses.
#[inline]
pub unsafe fn arm(replies: &[u32], log: &mut [u32]) {
    LENT.with(|lent| {
        let replies = replies.as_ptr_range();
        lent.replies_start.set(replies.start);
        lent.reply.set(replies.start);
        lent.replies_end.set(replies.end);
        let even = log.len() & !1;
        let log = log[..even].as_mut_ptr_range();
        lent.log_start.set(log.start);
        lent.log.set(log.start);
        lent.log_end.set(log.end);
    });
}

/// Log words and replies used since [arm].
#[inline]
pub fn used() -> (usize, usize) {
    LENT.with(|lent| {
        let words = lent.log.get().addr() - lent.log_start.get().addr();
        let replies = lent.reply.get().addr() - lent.replies_start.get().addr();
        (words / size_of::<u32>(), replies / size_of::<u32>())
    })
}

/// The word last written to LQSPI_CLK_CTRL, whatever register is asked for; the benchmark asks for no other.
pub fn slcr(_offset: u32) -> u32 {
    LENT.with(|lent| lent.lqspi_clk_ctrl.get())
}

/// Runs `f` with its accesses dropped: reads give 0. `f` makes at most 16 accesses.
pub fn silent<R>(f: impl FnOnce() -> R) -> R {
    let replies = [0; 16];
    let mut log = [0; 32];
    let before = LENT.with(Lent::places);
    // SAFETY: both arrays outlive `f`, and what was lent before is lent again after it.
    unsafe { arm(&replies, &mut log) };
    let value = f();
    LENT.with(|lent| lent.set_places(before));
    value
}

type Places = ([*const u32; 3], [*mut u32; 3]);

impl Lent {
    #[inline(always)]
    fn need_room(&self) {
        if self.log.get() == self.log_end.get() {
            log_full();
        }
    }

    /// Two words; [Self::need_room] comes before.
    #[inline(always)]
    fn log(&self, first: u32, value: u32) {
        let log = self.log.get();
        // SAFETY: the lent log has an even length and its place is even and not the end, so two words are left.
        unsafe {
            *log = first;
            *log.add(1) = value;
        }
        self.log.set(log.wrapping_add(2));
    }

    fn places(&self) -> Places {
        (
            [self.reply.get(), self.replies_end.get(), self.replies_start.get()],
            [self.log.get(), self.log_end.get(), self.log_start.get()],
        )
    }

    fn set_places(&self, (replies, log): Places) {
        for (place, value) in [&self.reply, &self.replies_end, &self.replies_start].into_iter().zip(replies) {
            place.set(value);
        }
        for (place, value) in [&self.log, &self.log_end, &self.log_start].into_iter().zip(log) {
            place.set(value);
        }
    }
}

#[cold]
fn write_slcr(base: usize, offset: u32, value: u32) {
    if base + offset as usize == LQSPI_CLK_CTRL {
        LENT.with(|lent| lent.lqspi_clk_ctrl.set(value));
    }
}

#[cold]
fn log_full() -> ! {
    panic!("the log is full")
}

#[cold]
fn replies_ended() -> ! {
    panic!("the replies ended")
}
