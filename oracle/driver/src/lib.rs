//! Runs a [Call] on the published Rust, its registers answered by a [Source].

use std::{
    cell::{Cell, RefCell},
    rc::Rc,
    vec,
};

use call::{Call, Ended};
use recorder::{Outcome, Recorded};

pub use baud_rate::{LAST_EQUAL_QUOTIENT, baud_rate_divisor, quotient, ruled};
pub use calls::{Flash, Values, call_published};
pub use recorder::Source;
pub use refusal::{Refusal, refusal};

mod baud_rate;
mod calls;
mod refusal;

/// The answer of a call that panicked, which is no number of document 01.
pub const PANICKED: u32 = u32::MAX;

/// What a call did.
pub struct Ran {
    pub ended: Ended,
    /// Two words an access.
    pub log: Vec<u32>,
    /// The message, where the answer is [PANICKED].
    pub panic: Option<String>,
    /// The source, as the run left it.
    pub source: Box<dyn Source>,
}

thread_local! {
    /// The driver between two calls. It has no state of its own, so that calls do not know of each other.
    static FLASH: RefCell<Option<Flash>> = const { RefCell::new(None) };
}

/// Makes a call with `room` log words. Reads fill the first `length` bytes of the buffer, which may be longer.
///
/// The log holds the call's own accesses: the driver value is made before, in a recording of its own. A call that
/// stopped or panicked takes its driver value with it.
///
/// A list that document 02 refuses is not handed to the Rust, which would erase what stands before the refused entry. Of `calculate`
/// the answer is the Rust's own at every quotient; [ruled] has document 02's.
pub fn run(call: &Call, source: Box<dyn Source>, room: usize, buffer: &mut [u8]) -> Ran {
    if let Call::EraseSectors { list } = call
        && let Some(Refusal { answer, place }) = refusal(list)
    {
        let ended = Ended { answer, place, ..Ended::default() };
        return Ran { ended, log: Vec::new(), panic: None, source };
    }
    let mut flash = FLASH.take().unwrap_or_else(new_flash);
    let recorded = recorder::record(source, room, || call_published(call, &mut flash, buffer));
    if matches!(recorded.outcome, Outcome::Returned(_)) {
        FLASH.set(Some(flash));
    }
    ran(recorded)
}

/// A driver value. The accesses that make it are those of `Qspi::new_single_qspi`, of the change to I/O mode and of one
/// clear status; they go to a recording of their own, which is dropped.
pub fn new_flash() -> Flash {
    let recorded = recorder::record(Box::new(Replies::new(calls::FLASH_REPLIES)), usize::MAX, calls::flash);
    match recorded.outcome {
        Outcome::Returned(flash) => flash,
        other => panic!("the driver cannot be made: {}", describe(&other)),
    }
}

fn ran(recorded: Recorded<(u32, Values)>) -> Ran {
    let Recorded { outcome, log, replies, source, .. } = recorded;
    let (answer, values, panic) = match outcome {
        Outcome::Returned((answer, values)) => (answer, values.as_slice().to_vec(), None),
        Outcome::Stopped(answer) => (answer, Vec::new(), None),
        Outcome::Panicked(message) => (PANICKED, Vec::new(), Some(message)),
    };
    let ended = Ended { answer, values, used: log.len(), replies, ..Ended::default() };
    Ran { ended, log, panic, source }
}

fn describe<R>(outcome: &Outcome<R>) -> String {
    match outcome {
        Outcome::Returned(_) => "it was".into(),
        Outcome::Stopped(number) => format!("stopped with {number}"),
        Outcome::Panicked(message) => message.clone(),
    }
}

/// Recorded replies, one a read, whatever is read.
pub struct Replies(vec::IntoIter<u32>);

impl Replies {
    pub fn new(words: impl Into<Vec<u32>>) -> Self {
        Self(words.into().into_iter())
    }
}

impl Source for Replies {
    #[inline]
    fn read(&mut self, _offset: u32) -> Option<u32> {
        self.0.next()
    }
}

/// The same calls made again and again, for measuring: the recorder is armed once, and nothing is caught.
pub struct Bench {
    flash: Flash,
    at: Rc<Cell<usize>>,
}

/// Replies whose place [Bench] can set back.
struct Rewound {
    words: Vec<u32>,
    at: Rc<Cell<usize>>,
}

impl Source for Rewound {
    #[inline]
    fn read(&mut self, _offset: u32) -> Option<u32> {
        let at = self.at.get();
        let word = self.words.get(at).copied()?;
        self.at.set(at + 1);
        Some(word)
    }
}

impl Bench {
    /// Arms the thread's recorder until it is dropped.
    pub fn new(replies: impl Into<Vec<u32>>, room: usize) -> Self {
        let flash = new_flash();
        let at = Rc::new(Cell::new(0));
        recorder::arm(Box::new(Rewound { words: replies.into(), at: at.clone() }), room);
        Self { flash, at }
    }

    /// Makes a call from the first reply and an empty log on; gives the answer and both used counts.
    #[inline]
    pub fn run(&mut self, call: &Call, buffer: &mut [u8]) -> (u32, usize, usize) {
        self.at.set(0);
        recorder::restart();
        let (answer, _) = call_published(call, &mut self.flash, buffer);
        let (used, replies) = recorder::used();
        (answer, used, replies)
    }
}

impl Drop for Bench {
    fn drop(&mut self) {
        recorder::disarm();
    }
}
