//! The ways of the erased package through a call: the run over replies, the lent driver stepped access by access, and a whole
//! call through that driver.
//! A stepped call also holds the access that `due` shows to the log words and counts of the step that makes it.

use crate::call::{Call, Ended, MOST_VALUES, Start, padded};
use crate::codes;
use verified::power_cut::{self, PagesRan};
use verified::qspi_calls::run::{command, kept, value};
use verified::qspi_calls::sectors;
use verified::qspi_driver::state::{self, Progress, StartRefused, is_under_way};
use verified::qspi_driver::{self, QspiSpansionS25Fl256SIoMode};
use verified::qspi_operation::{self, LentLengthChanged, Op, Stepped};
use verified::qspi_script::{self, Gives, Status};
use verified::qspi_transfer::Due;
use verified::zedboard_bsp::qspi_spansion::device_id::{BaseDeviceId, ExtendedDeviceId};

/// What a call is lent beside its replies.
pub struct Lent<'a> {
    pub list: &'a [u32],
    pub data: &'a [u8],
    pub buffer: &'a mut [u8],
    pub log: &'a mut [u32],
}

impl Lent<'_> {
    fn lengths(&self) -> qspi_script::Lent {
        qspi_script::Lent { data: self.data.len(), buffer: self.buffer.len(), log: self.log.len() }
    }
}

/// What the stepped driver contradicts itself in.
#[derive(Clone, Copy, Debug, PartialEq, Eq)]
pub enum Apart {
    /// A list of sectors is begun without the list, or the refusal changes something.
    List,
    /// Other lengths than at the start are not refused by 25, or the refusal changes something.
    Lengths,
    /// The log words of a step are not the access that was shown as due.
    Due,
    /// A step counts other log words or replies than its access has.
    Counts,
    /// No access was made, and the answer is not the one for it: 24 without room, else 23.
    Unmade,
    /// An ended operation shows an access, or a further step changes something.
    Ended,
    /// The driver says that the call gives what it does not, or does not give what it does.
    Gives,
}

/// The number of a status; the exports' stand-in for one that goes on, which no call ends with.
fn number(status: Status) -> u32 {
    status.number().unwrap_or(u32::MAX)
}

/// The call as one run over the replies.
pub fn run(call: Call, replies: &[u32], lent: Lent) -> Ended {
    let op = match call.start(lent.list, lent.lengths()) {
        Start::Answered(ended) => return ended,
        Start::Operation(op) => op,
    };
    if let Call::WritePages { addr } = call {
        return pages_end(power_cut::write_pages(addr, lent.data, replies, lent.log));
    }
    if call.takes_list() {
        let numbers = sectors::numbered(lent.list);
        let length = lent.list.len().min(numbers.len());
        return run_end(call, qspi_operation::run(op, &numbers[..length], &mut [], lent.log, replies));
    }
    if call.takes_data() || call.takes_buffer() {
        return run_end(call, qspi_operation::run(op, lent.data, lent.buffer, lent.log, replies));
    }
    run_end(call, command(op, replies, lent.log))
}

fn pages_end(pages: PagesRan) -> Ended {
    let ran = pages.ran;
    Ended {
        answer: number(ran.answer),
        used: ran.used,
        replies: ran.replies,
        counted: pages.programmed,
        values: padded(&[]),
    }
}

fn run_end(call: Call, s: Stepped) -> Ended {
    Ended {
        answer: number(s.answer),
        used: s.op.used,
        replies: s.op.replies,
        counted: qspi_operation::counted(s.op),
        values: run_values(call, s),
    }
}

fn run_values(call: Call, s: Stepped) -> [u32; MOST_VALUES] {
    let (wire, answer) = (s.op.wire, s.answer);
    let last = kept(answer, wire.last);
    match call.gives() {
        Gives::Id => padded(&codes::id_values(BaseDeviceId::from_reply(last))),
        Gives::LongId => {
            let (older, old) = (kept(answer, wire.older), kept(answer, wire.old));
            codes::long_id_values(ExtendedDeviceId::from_replies(older, old, last))
        }
        Gives::Register | Gives::Clock | Gives::Place(_) | Gives::Nothing => padded(&[value(s)]),
    }
}

/// The call as the driver's own loop makes it.
pub fn driven(call: Call, replies: &[u32], lent: Lent) -> Ended {
    let op = match call.start(lent.list, lent.lengths()) {
        Start::Answered(ended) => return ended,
        Start::Operation(op) => op,
    };
    let idle = QspiSpansionS25Fl256SIoMode::idle();
    let driven = match call {
        Call::WritePages { addr } => qspi_driver::write_pages(idle, addr, lent.data, replies, lent.log),
        Call::EraseSectors => qspi_driver::erase_sectors(idle, lent.list, replies, lent.log),
        _ => qspi_driver::drive(idle, op, lent.data, lent.buffer, lent.log, replies),
    };
    let progress = driven.driver.answer();
    Ended { answer: state::number(driven.answer).unwrap_or(u32::MAX), ..step_end(call, progress) }
}

/// What a start or a step answers.
type Answer = Result<Status, StartRefused>;
/// What a driver says is due.
type Asked = Result<Option<Due>, LentLengthChanged>;

/// The call stepped over the replies, in order.
pub fn stepped(call: Call, replies: &[u32], lent: Lent) -> Result<Ended, Apart> {
    let mut rest = replies.iter();
    let next = |asked| match asked {
        Ok(Some(Due::Read(_))) => rest.next().copied(),
        _ => None,
    };
    stepped_by(call, lent, next)
}

/// The call stepped to its end. `make` is shown each access for which the log has room, and gives the reply to a read.
pub fn stepped_by(call: Call, mut lent: Lent, mut make: impl FnMut(Asked) -> Option<u32>) -> Result<Ended, Apart> {
    let op = match call.start(lent.list, lent.lengths()) {
        Start::Answered(ended) => return Ok(ended),
        Start::Operation(op) => op,
    };
    let mut driver = QspiSpansionS25Fl256SIoMode::idle();
    let mut answer = begun(&mut driver, call, op, &lent)?;
    if is_under_way(answer) && !refuses_other_lengths(driver, &mut lent) {
        return Err(Apart::Lengths);
    }
    while is_under_way(answer) {
        answer = step(&mut driver, &mut lent, &mut make)?;
    }
    stays_ended(driver, answer, &mut lent)?;
    let progress = driver.answer();
    if gives_in_time(call, progress) { Ok(step_end(call, progress)) } else { Err(Apart::Gives) }
}

/// The driver's start. An operation of a list it takes only with the list.
fn begun(driver: &mut QspiSpansionS25Fl256SIoMode, call: Call, op: Op, lent: &Lent) -> Result<Answer, Apart> {
    let before = *driver;
    let answer = driver.start(op);
    if !call.takes_list() {
        return Ok(answer);
    }
    if answer != Err(StartRefused::ListMissing) || *driver != before {
        return Err(Apart::List);
    }
    Ok(driver.erase_sectors(lent.list, lent.log.len()))
}

/// Whether a step that is lent another length than the start answers 25, and the driver stays as it was.
fn refuses_other_lengths(mut driver: QspiSpansionS25Fl256SIoMode, lent: &mut Lent) -> bool {
    let (before, refusal, reply) = (driver, Ok(Status::LentLengthChanged), Some(0));
    let Lent { data, buffer, log, .. } = lent;
    let other_data = data.get(1..).unwrap_or(&[0]);
    let mut is_refused = driver.due(other_data) == Err(LentLengthChanged);
    is_refused &= driver.step(other_data, buffer, log, reply) == refusal;
    is_refused &= driver.step(data, buffer.get_mut(1..).unwrap_or(&mut [0]), log, reply) == refusal;
    is_refused &= driver.step(data, buffer, log.get_mut(1..).unwrap_or(&mut [0]), reply) == refusal;
    is_refused && driver == before
}

/// One step, held to what was due before it.
fn step(
    driver: &mut QspiSpansionS25Fl256SIoMode,
    lent: &mut Lent,
    make: &mut impl FnMut(Asked) -> Option<u32>,
) -> Result<Answer, Apart> {
    let (used, replies) = (driver.state.op.used, driver.state.op.replies);
    let has_room = used + 2 <= lent.log.len();
    let asked = driver.due(lent.data);
    // Without room the access is not made, a write neither.
    let reply = if has_room { make(asked) } else { None };
    let answer = driver.step(lent.data, lent.buffer, lent.log, reply);
    let after = driver.state.op;
    let Some(words) = log_words(asked, reply).filter(|_| has_room) else {
        let refusal = if has_room { Status::RepliesEnded } else { Status::LogFull };
        let is_unmade = answer == Ok(refusal) && (after.used, after.replies) == (used, replies);
        return if is_unmade { Ok(answer) } else { Err(Apart::Unmade) };
    };
    let is_read = matches!(asked, Ok(Some(Due::Read(_))));
    if (after.used, after.replies) != (used + 2, replies + usize::from(is_read)) {
        return Err(Apart::Counts);
    }
    if lent.log[used..used + 2] == words { Ok(answer) } else { Err(Apart::Due) }
}

/// The log words of an access; none where nothing is due, or a read has no reply.
fn log_words(asked: Asked, reply: Option<u32>) -> Option<[u32; 2]> {
    match (asked, reply) {
        (Ok(Some(Due::Read(offset))), Some(word)) => Some([0x100 + u32::from(offset), word]),
        (Ok(Some(Due::Write(offset, value))), _) => Some([offset.into(), value]),
        _ => None,
    }
}

/// An ended operation shows no access, and stepped again it repeats its answer.
fn stays_ended(mut driver: QspiSpansionS25Fl256SIoMode, answer: Answer, lent: &mut Lent) -> Result<(), Apart> {
    let before = driver;
    let is_over = driver.due(lent.data) == Ok(None);
    let again = driver.step(lent.data, lent.buffer, lent.log, Some(0));
    if is_over && again == answer && driver == before { Ok(()) } else { Err(Apart::Ended) }
}

fn step_end(call: Call, progress: Progress) -> Ended {
    Ended {
        answer: number(progress.status),
        used: progress.used,
        replies: progress.replies,
        counted: progress.counted,
        values: step_values(call, progress),
    }
}

fn step_values(call: Call, progress: Progress) -> [u32; MOST_VALUES] {
    match call.gives() {
        Gives::Register => padded(&[progress.register().into()]),
        Gives::Id => padded(&codes::id_values(progress.base_device_id())),
        Gives::LongId => codes::long_id_values(progress.extended_device_id()),
        Gives::Place(_) => padded(&[progress.place().into()]),
        // 0 but for an `initialize` that is done.
        Gives::Clock | Gives::Nothing => padded(&[progress.lqspi_clk_ctrl()]),
    }
}

/// Only a call that is done gives something, and a list that is refused for an entry.
fn gives_in_time(call: Call, progress: Progress) -> bool {
    match (call.gives(), progress.status) {
        (Gives::Place(_), Status::OutOfRange | Status::Alignment | Status::RepeatedSector) => {
            matches!(progress.gives, Gives::Place(_))
        }
        (Gives::Place(_), _) => progress.gives == Gives::Nothing,
        (gives, Status::Done) => progress.gives == gives,
        _ => progress.gives == Gives::Nothing,
    }
}
