//! The memory that the demo works with. None of it is on the stack.
use crate::board::{LOG_WORDS, LONGEST_READ};
use core::cell::UnsafeCell;
use core::sync::atomic::{AtomicBool, Ordering::Relaxed};

pub struct Memory {
    pub log: [u32; LOG_WORDS],
    pub buffer: [u8; LONGEST_READ],
    pub list: replay::Memory,
}

/// Memory that is lent once.
struct Once<T> {
    is_lent: AtomicBool,
    memory: UnsafeCell<T>,
}

// SAFETY: `lend` gives the memory out once, so that no two can have it.
unsafe impl<T: Send> Sync for Once<T> {}

static MEMORY: Once<Memory> = Once {
    is_lent: AtomicBool::new(false),
    memory: UnsafeCell::new(Memory { log: [0; LOG_WORDS], buffer: [0; LONGEST_READ], list: replay::Memory::new() }),
};

/// Lends the memory to the one who asks first.
pub fn lend() -> &'static mut Memory {
    assert!(!MEMORY.is_lent.swap(true, Relaxed), "the memory is lent already");
    // SAFETY: nobody had it before, and nobody gets it after.
    unsafe { &mut *MEMORY.memory.get() }
}
