// Made by tools/erase from crates/qspi_driver/src/state.rt; a change belongs there.
//! The driver state by value: what a start and a step make of it. The methods that are lent the driver
//! take it apart and call these.

use crate::qspi_calls::run;
use crate::qspi_calls::sectors;
use crate::qspi_calls::start;
use crate::qspi_operation;
use crate::qspi_operation::LentLengthChanged;
use crate::qspi_operation::Op;
use crate::qspi_operation::Stepped;
use crate::qspi_script::Gives;
use crate::qspi_script::Status;
use crate::qspi_transfer::Due;
use crate::zedboard_bsp::qspi_spansion::LONGEST_LIST;
use crate::zedboard_bsp::qspi_spansion::device_id::BaseDeviceId;
use crate::zedboard_bsp::qspi_spansion::device_id::ExtendedDeviceId;
use crate::zedboard_bsp::qspi_spansion::words;

// What the driver knows between two accesses: the operation at hand.
#[derive(Clone, Copy, Debug, PartialEq, Eq)]
pub struct State {
    pub op: Op,
}

// The list of sectors as it was lent at the start of `erase_sectors`, a byte a sector: its number. There is no
// heap on the board, so there is room for the longest; how many they are says the operation.
#[derive(Clone, Copy, Debug, PartialEq, Eq)]
pub struct SectorList {
    pub numbers: [u8; LONGEST_LIST],
}

// Why a start begins nothing: nothing is changed then.
#[derive(Clone, Copy, Debug, PartialEq, Eq)]
pub enum StartRefused {
    // The operation at hand has not ended.
    Busy,
    // A list of sectors is begun without its list; `erase_sectors` begins one.
    ListMissing,
}

// Document 01's number, where the answer has one.
pub fn number(answer: Result<Status, StartRefused>) -> Option<u32> {
    match answer {
        Ok(status) => status.number(),
        Err(_) => None,
    }
}

// The state after a start or a step, and its answer: the status of the operation at hand. Both answer in one
// type, so that a caller begins a call and goes on with it by one answer; a step is not refused.
#[derive(Clone, Copy, Debug, PartialEq, Eq)]
pub struct Acted {
    pub state: State,
    pub answer: Result<Status, StartRefused>,
}

// The same after a start of a list, with the list that is kept.
#[derive(Clone, Copy, Debug, PartialEq, Eq)]
pub struct ListActed {
    pub state: State,
    pub list: SectorList,
    pub answer: Result<Status, StartRefused>,
}

// The answer so far: status, used counts (log words, replies), what it counts (bytes programmed by
// `write_pages`, sectors finished of a list), and of an answer with values what it gives: the SLCR clock
// word, the place of an entry, and the last three replies, of which a register's byte or an id is made. These
// are no enum of values: `register`, the ids and `lqspi_clk_ctrl` promise what they give of any answer.
#[derive(Clone, Copy, Debug, PartialEq, Eq)]
pub struct Progress {
    pub status: Status,
    pub used: usize,
    pub replies: usize,
    pub counted: usize,
    pub gives: Gives,
    pub clock: u32,
    pub older: u32,
    pub old: u32,
    pub last: u32,
}

impl Progress {
    // The byte of `read_status_register_1` or `read_configuration_register`.
    pub fn register(self) -> u8 {
        words::top_byte(self.last)
    }

    // The id of `read_rdid_base`.
    pub fn base_device_id(self) -> BaseDeviceId {
        BaseDeviceId::from_reply(self.last)
    }

    // The id of `read_rdid_extended`.
    pub fn extended_device_id(self) -> ExtendedDeviceId {
        ExtendedDeviceId::from_replies(self.older, self.old, self.last)
    }

    // The SLCR clock word of `initialize`; 0 for any other call.
    pub fn lqspi_clk_ctrl(self) -> u32 {
        self.clock
    }

    // The place, from 0, of the entry that a list of sectors was refused for; 0 for any other answer, and no
    // `Option`: clause `place` says 0 of those, and `gives` tells which answers have a place.
    pub fn place(self) -> u8 {
        match self.gives {
            Gives::Place(at) => at,
            _ => 0,
        }
    }
}

// Begins a call, unless one is under way or the call is of a list, which `begin_list` begins.
pub fn begin(state: State, op: Op) -> Acted {
    if qspi_operation::is_going(state.op.status) {
        return Acted {
            state,
            answer: Err(StartRefused::Busy),
        };
    }
    if qspi_operation::erases_list(op) {
        return Acted {
            state,
            answer: Err(StartRefused::ListMissing),
        };
    }
    Acted {
        state: State { op },
        answer: Ok(op.status),
    }
}

// Begins a list of sectors, unless a call is under way: its numbers are kept beside the operation.
pub fn begin_list(state: State, kept: SectorList, list: &[u32], log: usize) -> ListActed {
    if qspi_operation::is_going(state.op.status) {
        let answer = Err(StartRefused::Busy);
        return ListActed {
            state,
            list: kept,
            answer,
        };
    }
    let begun = start::erase_sectors(list, log);
    let numbers = sectors::numbered(list);
    ListActed {
        state: State { op: begun },
        list: SectorList { numbers },
        answer: Ok(begun.status),
    }
}

// What the operation at hand is lent: a list of sectors its own copy, as far as it is long, and no other
// data with it; any other operation the caller's data. Three functions take state, list and data one by one:
// a struct of them would be made for each call, and taken apart in it.
fn lent_to<'a>(state: State, list: &'a [u8], data: &'a [u8]) -> &'a [u8] {
    if !qspi_operation::erases_list(state.op) {
        return data;
    }
    if 0 < data.len() {
        return &list[..0];
    }
    let n = state.op.job.lent.data;
    if n < list.len() { &list[..n] } else { list }
}

// The access that is due.
pub fn due<'a>(
    state: State,
    list: &'a [u8],
    data: &'a [u8],
) -> Result<Option<Due>, LentLengthChanged> {
    let lent = lent_to(state, list, data);
    qspi_operation::due(state.op, lent)
}

pub fn answer_so_far(state: State) -> Progress {
    let op = state.op;
    let status = op.status;
    let wire = op.wire;
    Progress {
        status,
        used: op.used,
        replies: op.replies,
        counted: qspi_operation::counted(op),
        gives: run::given(status, op.job.script.gives),
        clock: run::kept(status, op.job.low_level.clock),
        older: run::kept(status, wire.older),
        old: run::kept(status, wire.old),
        last: run::kept(status, wire.last),
    }
}

// The state that holds a stepped operation.
fn holding(stepped: Stepped) -> Acted {
    Acted {
        state: State { op: stepped.op },
        answer: Ok(stepped.answer),
    }
}

// A step of the operation at hand. A call without data or without a read buffer is lent an empty one.
pub fn step<'a>(
    state: State,
    list: &'a [u8],
    data: &'a [u8],
    buffer: &mut [u8],
    log: &mut [u32],
    reply: Option<u32>,
) -> Acted {
    let lent = lent_to(state, list, data);
    holding(qspi_operation::step(state.op, lent, buffer, log, reply))
}

// The next one of the replies that was not used, or none.
pub fn next_reply(state: State, replies: &[u32]) -> Option<u32> {
    replies.get(state.op.replies).copied()
}

// Whether a call is under way: a step is due.
pub fn is_under_way(answer: Result<Status, StartRefused>) -> bool {
    matches!(answer, Ok(Status::Going))
}
