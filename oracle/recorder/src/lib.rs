//! The register layer of the comparison. The accessors of the register blocks call [read] and [write]; what they do
//! belongs to the thread's recording. QSPI accesses go to the log as document 01 has it: offset (plus 100 hex for a
//! read), then value. SLCR accesses go aside.
//!
//! A run ends early by unwinding with a private marker. From there on the recorder is silent: the transfer guard's
//! `Drop` still makes its accesses while the stack unwinds, and those are no part of the log.

use std::{
    any::Any,
    cell::{Cell, RefCell},
    panic::{self, AssertUnwindSafe},
    sync::Once,
};

/// Base address of the QSPI block.
pub const QSPI: usize = 0xE000_D000;
/// Base address of the SLCR block.
pub const SLCR: usize = 0xF800_0000;
/// Added to the offset in the log's first word for a read.
pub const READ: u32 = 0x100;
/// The stop where a read is due and the source has no reply left.
pub const REPLIES_ENDED: u32 = 23;
/// The stop where an access is due and the log has no room for its two words.
pub const LOG_FULL: u32 = 24;

/// Log words that a recording gets at once; it grows from there.
const FIRST_WORDS: usize = 1024;

/// Answers the reads of the QSPI block.
pub trait Source {
    /// The reply, or `None` where there is none left.
    fn read(&mut self, offset: u32) -> Option<u32>;

    /// Hears of a write after it was logged.
    fn write(&mut self, _offset: u32, _value: u32) {}
}

/// What became of a recording.
pub struct Recorded<R> {
    pub outcome: Outcome<R>,
    /// Two words an access.
    pub log: Vec<u32>,
    /// Replies used.
    pub replies: usize,
    pub slcr: Slcr,
    /// The source, as the run left it.
    pub source: Box<dyn Source>,
}

/// How the recorded function ended.
#[derive(Debug)]
pub enum Outcome<R> {
    Returned(R),
    /// [REPLIES_ENDED] or [LOG_FULL].
    Stopped(u32),
    /// Any other panic, with its message.
    Panicked(String),
}

/// The SLCR words of a recording, by offset from [SLCR].
#[derive(Clone, Debug, Default, PartialEq, Eq)]
pub struct Slcr(Vec<(u32, u32)>);

impl Slcr {
    const fn new() -> Self {
        Self(Vec::new())
    }

    /// The word last written to a register.
    pub fn last(&self, offset: u32) -> Option<u32> {
        self.0.iter().rev().find(|(at, _)| *at == offset).map(|(_, value)| *value)
    }

    /// All writes in order, as offset and value.
    pub fn writes(&self) -> &[(u32, u32)] {
        &self.0
    }
}

/// The marker a stop unwinds with.
struct Stop(u32);

#[derive(Clone, Copy, PartialEq, Eq)]
enum Mode {
    /// No recording: an access is a mistake of the caller.
    Off,
    Live,
    /// Reads give 0, nothing is kept, nothing unwinds.
    Silent,
}

struct State {
    log: Vec<u32>,
    room: usize,
    replies: usize,
    slcr: Slcr,
    source: Option<Box<dyn Source>>,
}

struct Recorder {
    mode: Cell<Mode>,
    /// A stop or panic ends in [record], which reports it.
    caught: Cell<bool>,
    state: RefCell<State>,
}

thread_local! {
    static RECORDER: Recorder = const {
        Recorder {
            mode: Cell::new(Mode::Off),
            caught: Cell::new(false),
            state: RefCell::new(State {
                log: Vec::new(),
                room: 0,
                replies: 0,
                slcr: Slcr::new(),
                source: None,
            }),
        }
    };
}

/// One read of a register, for the accessors.
#[inline]
pub fn read(base: usize, offset: u32) -> u32 {
    RECORDER.with(|recorder| match recorder.mode.get() {
        Mode::Live if base == QSPI => recorder.settle(|state| state.read(offset)),
        Mode::Live => recorder.state.borrow().slcr.last(slcr_offset(base, offset)).unwrap_or(0),
        Mode::Silent => 0,
        Mode::Off => panic!("a register is read outside of a recording"),
    })
}

/// One write of a register, for the accessors.
#[inline]
pub fn write(base: usize, offset: u32, value: u32) {
    RECORDER.with(|recorder| match recorder.mode.get() {
        Mode::Live if base == QSPI => recorder.settle(|state| state.write(offset, value)),
        Mode::Live => recorder.state.borrow_mut().slcr.0.push((slcr_offset(base, offset), value)),
        Mode::Silent => {}
        Mode::Off => panic!("a register is written outside of a recording"),
    });
}

/// Runs `f` with its accesses recorded. `room` is the log's, in words.
pub fn record<R>(source: Box<dyn Source>, room: usize, f: impl FnOnce() -> R) -> Recorded<R> {
    silence_panics();
    arm(source, room);
    RECORDER.with(|recorder| recorder.caught.set(true));
    let outcome = match panic::catch_unwind(AssertUnwindSafe(f)) {
        Ok(value) => Outcome::Returned(value),
        Err(payload) => outcome_of(payload),
    };
    let Disarmed { log, replies, slcr, source } = disarm();
    Recorded { outcome, log, replies, slcr, source }
}

/// What a recording held when it was ended.
pub struct Disarmed {
    pub log: Vec<u32>,
    pub replies: usize,
    pub slcr: Slcr,
    pub source: Box<dyn Source>,
}

/// Starts a recording that nobody catches: a stop is a panic of the caller's. [record] is this with the stop caught.
pub fn arm(source: Box<dyn Source>, room: usize) {
    RECORDER.with(|recorder| {
        assert!(recorder.mode.get() == Mode::Off, "a recording is under way");
        *recorder.state.borrow_mut() = State {
            log: Vec::with_capacity(room.min(FIRST_WORDS)),
            room,
            replies: 0,
            slcr: Slcr::default(),
            source: Some(source),
        };
        recorder.mode.set(Mode::Live);
    });
}

/// Empties the log and the counts of a recording under way; the source stays as it is.
pub fn restart() {
    RECORDER.with(|recorder| {
        let mut state = recorder.state.borrow_mut();
        state.log.clear();
        state.replies = 0;
        state.slcr.0.clear();
    });
}

/// Log words and replies used so far.
pub fn used() -> (usize, usize) {
    RECORDER.with(|recorder| {
        let state = recorder.state.borrow();
        (state.log.len(), state.replies)
    })
}

/// The word last written to an SLCR register of this recording, by offset from [SLCR]; 0 where none was.
pub fn slcr(offset: u32) -> u32 {
    RECORDER.with(|recorder| recorder.state.borrow().slcr.last(offset).unwrap_or(0))
}

/// Ends the recording that [arm] started.
pub fn disarm() -> Disarmed {
    RECORDER.with(|recorder| {
        recorder.mode.set(Mode::Off);
        recorder.caught.set(false);
        let mut state = recorder.state.borrow_mut();
        Disarmed {
            log: std::mem::take(&mut state.log),
            replies: state.replies,
            slcr: std::mem::take(&mut state.slcr),
            source: state.source.take().expect("a recording is under way"),
        }
    })
}

/// Runs `f` with its accesses dropped: reads give 0. For what has to be made before the call under test.
pub fn silent<R>(f: impl FnOnce() -> R) -> R {
    let before = RECORDER.with(|recorder| recorder.mode.replace(Mode::Silent));
    let value = f();
    RECORDER.with(|recorder| recorder.mode.set(before));
    value
}

impl Recorder {
    /// Makes an access, and ends the run where it could not be made. The state is free again by then, for the accesses
    /// that are made while the stack unwinds.
    #[inline]
    fn settle<T>(&self, access: impl FnOnce(&mut State) -> Result<T, Stop>) -> T {
        let made = access(&mut self.state.borrow_mut());
        made.unwrap_or_else(|stop| self.end(stop))
    }

    /// Whether the panic will be reported as an outcome.
    fn hears_panic(&self) -> bool {
        if self.mode.get() == Mode::Live {
            self.mode.set(Mode::Silent);
        }
        self.caught.get()
    }

    #[cold]
    fn end(&self, stop: Stop) -> ! {
        self.mode.set(Mode::Silent);
        if !self.caught.get() {
            panic!("the run stopped with {}", stop.0);
        }
        panic::resume_unwind(Box::new(stop))
    }
}

impl State {
    #[inline]
    fn read(&mut self, offset: u32) -> Result<u32, Stop> {
        self.need_room()?;
        let source = self.source.as_mut().expect("a live recording has a source");
        let value = source.read(offset).ok_or(Stop(REPLIES_ENDED))?;
        self.replies += 1;
        self.log.extend_from_slice(&[offset + READ, value]);
        Ok(value)
    }

    #[inline]
    fn write(&mut self, offset: u32, value: u32) -> Result<(), Stop> {
        self.need_room()?;
        self.log.extend_from_slice(&[offset, value]);
        let source = self.source.as_mut().expect("a live recording has a source");
        source.write(offset, value);
        Ok(())
    }

    #[inline]
    fn need_room(&self) -> Result<(), Stop> {
        if self.room - self.log.len() < 2 { Err(Stop(LOG_FULL)) } else { Ok(()) }
    }
}

fn slcr_offset(base: usize, offset: u32) -> u32 {
    let from = base.checked_sub(SLCR).filter(|from| *from < 0x1000).expect("a register of the QSPI or SLCR block");
    from as u32 + offset
}

fn outcome_of<R>(payload: Box<dyn Any + Send>) -> Outcome<R> {
    match payload.downcast::<Stop>() {
        Ok(stop) => Outcome::Stopped(stop.0),
        Err(payload) => Outcome::Panicked(message(&*payload)),
    }
}

fn message(payload: &(dyn Any + Send)) -> String {
    let text = payload.downcast_ref::<&str>().copied();
    text.or_else(|| payload.downcast_ref::<String>().map(String::as_str)).unwrap_or("panic without a message").into()
}

/// A panic in a recording is an outcome: the hook keeps quiet about it and makes the recorder silent before the stack
/// unwinds. Any other panic goes to the hook that was there before.
fn silence_panics() {
    static HOOK: Once = Once::new();
    HOOK.call_once(|| {
        let before = panic::take_hook();
        panic::set_hook(Box::new(move |info| {
            if !RECORDER.try_with(Recorder::hears_panic).unwrap_or(false) {
                before(info);
            }
        }));
    });
}
