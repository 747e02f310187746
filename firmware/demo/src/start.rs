//! What comes before `main`, and what comes after a fault.
use crate::say;
use core::arch::{asm, global_asm};
use core::panic::PanicInfo;

// Sets the stack and the exception vectors, clears what starts as zero, and goes to `main`. An exception takes a stack
// of its own: each processor mode has its own stack pointer.
global_asm!(
    ".section .text.start, \"ax\"",
    ".global _start",
    "_start:",
    "    ldr sp, =STACK_TOP",
    "    ldr r0, =vectors",
    "    mcr p15, 0, r0, c12, c0, 0",
    "    ldr r0, =BSS_START",
    "    ldr r1, =BSS_END",
    "    mov r2, #0",
    "1:  cmp r0, r1",
    "    strlo r2, [r0], #4",
    "    blo 1b",
    "    bl main",
    ".balign 32",
    "vectors:",
    ".rept 8",
    "    b 2f",
    ".endr",
    "2:  ldr sp, =STACK_TOP",
    "    mov r0, lr",
    "    bl exception",
);

/// No access of the demo can be at fault, and no interrupt is on: an exception is a defect.
#[unsafe(no_mangle)]
extern "C" fn exception(near: usize) -> ! {
    panic!("an exception near {near:08X}")
}

/// `firmware/run` looks for the first word.
#[panic_handler]
fn panic(info: &PanicInfo) -> ! {
    match info.location() {
        Some(place) => say!("PANIC at {place}: {}", info.message()),
        None => say!("PANIC: {}", info.message()),
    }
    halt()
}

/// Stands still until the power goes.
pub fn halt() -> ! {
    loop {
        // SAFETY: waits for an interrupt; touches no memory and no register.
        unsafe { asm!("wfi") }
    }
}
