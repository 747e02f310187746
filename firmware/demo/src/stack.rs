//! How far the stack reaches. Its room and the memory below it are painted before anything is there, and looked at again later.
use core::sync::atomic::AtomicU32;
use core::sync::atomic::Ordering::Relaxed;

const PAINT: u32 = 0x5A5A_A5A5;
/// The stack's room, in bytes.
pub const ROOM: usize = 0x1000;
/// What is painted, room included: far more than one function could jump over.
const WORDS: usize = 0x1_0000 / 4;
/// What `main` itself may have on the stack as it paints.
const IN_USE: usize = 0x400 / 4;

// SAFETY: link.ld keeps these words free for the stack. Any bits make a word; below the stack pointer nobody writes but the stack.
unsafe extern "C" {
    safe static STACK: [AtomicU32; WORDS];
}

/// Paints what is not in use.
pub fn paint() {
    for word in &STACK[..WORDS - IN_USE] {
        word.store(PAINT, Relaxed);
    }
}

/// Whether nothing below the room was written since.
pub fn has_stayed() -> bool {
    STACK[..WORDS - ROOM / 4].iter().all(|word| word.load(Relaxed) == PAINT)
}
