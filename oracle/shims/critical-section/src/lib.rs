//! Stand-in for `critical-section`. Assumes of it: `with` runs the function once. There are no interrupts to hold off.

/// Token of a critical section.
pub struct CriticalSection(());

#[inline]
pub fn with<R>(f: impl FnOnce(CriticalSection) -> R) -> R {
    f(CriticalSection(()))
}
