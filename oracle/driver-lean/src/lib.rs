//! Runs a [Call] on the published Rust with the benchmark's recorder: replies and log are lent, nothing is caught.

use std::cell::RefCell;

use call::Call;
use calls::{Flash, call_published};

pub use calls::Values;

#[path = "../../driver/src/calls.rs"]
mod calls;

/// The flash driver, ready for calls.
pub struct Driver(Flash);

impl Driver {
    /// The accesses that make it are dropped.
    pub fn new() -> Self {
        let mut log = [0; 24];
        // SAFETY: both outlive the accesses of `flash`. No access is made outside of this function and of `call`, which
        // lend first.
        unsafe { recorder::arm(&calls::FLASH_REPLIES, &mut log) };
        Self(calls::flash())
    }

    /// Makes a call; gives the answer, the log words used and the replies used. Panics where replies or log end.
    #[inline]
    pub fn run(&mut self, call: &Call, replies: &[u32], log: &mut [u32], buffer: &mut [u8]) -> (u32, usize, usize) {
        let (answer, _) = self.call(call, replies, log, buffer);
        let (used, replies) = recorder::used();
        (answer, used, replies)
    }

    /// Makes a call; gives the answer and its values.
    #[inline]
    pub fn call(&mut self, call: &Call, replies: &[u32], log: &mut [u32], buffer: &mut [u8]) -> (u32, Values) {
        // SAFETY: both outlive the call. No access is made outside of this function and of `new`, which lend first.
        unsafe { recorder::arm(replies, log) };
        call_published(call, &mut self.0, buffer)
    }
}

impl Default for Driver {
    fn default() -> Self {
        Self::new()
    }
}

thread_local! {
    static DRIVER: RefCell<Option<Driver>> = const { RefCell::new(None) };
}

/// [Driver::run] with the thread's driver.
#[inline]
pub fn run(call: &Call, replies: &[u32], log: &mut [u32], buffer: &mut [u8]) -> (u32, usize, usize) {
    DRIVER.with_borrow_mut(|driver| driver.get_or_insert_with(Driver::new).run(call, replies, log, buffer))
}
