//! Stand-in for `aarch32-cpu`. Assumes of it: `nop` does nothing but pass time.

pub mod asm {
    #[inline]
    pub fn nop() {}
}
