// Made by tools/erase from crates/qspi_script/src/lib.rt; a change belongs there.
//! Which transfer comes next: the calls of the flash chip as a script of stages, after the functions of
//! the Rust file `zedboard-bsp/src/qspi_spansion.rs`. A stage is one transfer.

use crate::qspi_transfer::Frame;
use crate::qspi_transfer::low_level::Sequence;
use crate::zedboard_bsp::qspi_spansion::RegisterId;
use crate::zedboard_bsp::qspi_spansion::StatusRegister1;
use crate::zedboard_bsp::qspi_spansion::limits;
use crate::zedboard_bsp::qspi_spansion::registers;
use crate::zedboard_bsp::qspi_spansion::words;
use crate::zynq7000::qspi;
use crate::zynq7000_hal::qspi::prefill;

// What a transfer is for. `Poll` reads the status after program or erase; `Registers` sends nothing;
// `End` is no transfer.
#[derive(Clone, Copy, Debug, PartialEq, Eq)]
pub enum Stage {
    Enable,
    Disable,
    Clear,
    ReadStatus,
    ReadConfig,
    WriteStatus,
    WriteRegisters,
    ReadId,
    ReadLongId,
    Erase,
    Program,
    Poll,
    Read,
    Registers,
    End,
}

// How a call stands: going on, done, or ended by a refusal, each with the papers' number; 26 is the number
// of no answer. `LentLengthChanged` is answered by a step and ends nothing.
#[derive(Clone, Copy, Debug, PartialEq, Eq)]
pub enum Status {
    Going = 26,
    Done = 0,
    OutOfRange = 1,
    Alignment = 2,
    DataTooLarge = 3,
    NotAligned = 4,
    CrossesPageBoundary = 5,
    AddressSpan = 10,
    FieldTooWide = 12,
    EraseErrorBitSet = 21,
    ProgrammingErrorBitSet = 22,
    RepliesEnded = 23,
    LogFull = 24,
    LentLengthChanged = 25,
    RepeatedSector = 32,
    ListTooLong = 33,
}

impl Status {
    // The number of an answer: a call that goes on has none. 0 is said only by a call that is done.
    pub fn number(self) -> Option<u32> {
        match self {
            Status::Going => None,
            _ => Some(self as u32),
        }
    }
}

// What status and config are read for: the answer, `new`, or `set_write_protection`.
#[derive(Clone, Copy, Debug, PartialEq, Eq)]
pub enum Purpose {
    Answer,
    Configure,
    Protect,
}

// What a call gives beside its counts. One that is done gives nothing, the byte of a register, an id of
// one reply or of three, or the SLCR clock word; a list of sectors that is refused for an entry gives the
// entry's place.
#[derive(Clone, Copy, Debug, PartialEq, Eq)]
pub enum Gives {
    Nothing,
    Register,
    Id,
    LongId,
    Clock,
    Place(u8),
}

// What comes once program or erase has ended clean: the end, the next chunk of `write_pages`, or the next
// sector of a list.
#[derive(Clone, Copy, Debug, PartialEq, Eq)]
pub enum Sequel {
    Once,
    Pages,
    Sectors,
}

// What comes after what, where calls differ. `erasing` picks the error bit. It is told by values, not by
// closures: an operation is copied and kept by callers, and clauses compare whole ones (`result ≡ step_of ..`).
#[derive(Clone, Copy, Debug, PartialEq, Eq)]
pub struct Script {
    pub after_enable: Stage,
    pub after_clear: Stage,
    pub after_disable: Status,
    pub erasing: bool,
    pub sequel: Sequel,
    pub purpose: Purpose,
    pub gives: Gives,
}

// The lengths of the memory that the call was lent at its start.
#[derive(Clone, Copy, Debug, PartialEq, Eq)]
pub struct Lent {
    pub data: usize,
    pub buffer: usize,
    pub log: usize,
}

// What `new` and `set_write_protection` are asked for. `Purpose` says which of the two it is; definitions
// `configured` and `protecting` take the whole.
#[derive(Clone, Copy, Debug, PartialEq, Eq)]
pub struct Wanted {
    pub quad: bool,
    pub latency: Option<u8>,
    pub clear: bool,
    pub protection: u8,
}

// A read: the fast command, and a dummy byte before the data.
#[derive(Clone, Copy, Debug, PartialEq, Eq)]
pub struct Reading {
    pub fast: bool,
    pub dummy: bool,
}

// A call that sends nothing, the word that it writes, and the SLCR clock word that `initialize` gives: beside
// `Gives::Clock` and not in it, as definition `values_of` takes the two apart.
#[derive(Clone, Copy, Debug, PartialEq, Eq)]
pub struct LowLevel {
    pub sequence: Sequence,
    pub word: u32,
    pub clock: u32,
}

// A call as it was asked for; steps do not change it.
#[derive(Clone, Copy, Debug, PartialEq, Eq)]
pub struct Job {
    pub lent: Lent,
    pub script: Script,
    pub addr: u32,
    pub reading: Reading,
    pub wanted: Wanted,
    pub low_level: LowLevel,
}

// Where a call stands: its stage, the bytes done (of a list, the sectors), the bytes of the chunk at hand,
// and the two register bytes at hand.
#[derive(Clone, Copy, Debug, PartialEq, Eq)]
pub struct Place {
    pub stage: Stage,
    pub done: usize,
    pub chunk: u8,
    pub sr: u8,
    pub cr: u8,
}

#[derive(Clone, Copy, Debug, PartialEq, Eq)]
pub struct Turned {
    pub place: Place,
    pub status: Status,
}

// One word out, one reply in, after one status read.
fn one_word(port: u8) -> Frame {
    Frame {
        port,
        words: 0,
        bytes: 4,
        twice: false,
    }
}

// So many words of four bytes behind the first, so many bytes of replies, each reply after two status
// reads.
fn data_frame(words: u32, bytes: u32) -> Frame {
    Frame {
        port: qspi::TX_DATA_00,
        words,
        bytes,
        twice: true,
    }
}

// How many zero words a read needs behind its command.
fn read_words(chunk: u8, dummy: bool) -> u32 {
    (chunk as u32 + dummy as u32).div_ceil(4)
}

// One reply more than zero words: the reply to the command word.
fn read_frame(chunk: u8, dummy: bool) -> Frame {
    let words = read_words(chunk, dummy);
    data_frame(prefill(words), words * 4 + 4)
}

// One reply more than data words: the reply to the command word. With it the last word is out before chip
// select rises.
fn program_frame(chunk: u8) -> Frame {
    let bytes = chunk as u32;
    data_frame(prefill(bytes / 4), bytes + 4)
}

// The sector of a list after those finished. A list is lent as data, a byte a sector: its number. Past its end
// 0, as definition `listed_sector` says.
fn listed_sector(data: &[u8], done: usize) -> u32 {
    match data.get(done) {
        Some(number) => limits::sector_start(*number),
        None => 0,
    }
}

// Four bytes of the data, low byte first; past its end 0, as definition `data_word` says.
fn data_word(data: &[u8], at: u64) -> u32 {
    if data.len() as u64 <= at {
        return 0;
    }
    match &data[at as usize..] {
        [a, b, c, d, ..] => words::data_word(*a, *b, *c, *d),
        _ => 0,
    }
}

// How many bytes the next chunk of a read has.
pub fn next_chunk(length: usize, done: usize, dummy: bool) -> u8 {
    limits::read_chunk(length.saturating_sub(done), dummy)
}

// How many bytes the next chunk of `write_pages` has.
fn page_chunk(length: usize, done: usize) -> u8 {
    limits::page_chunk(length.saturating_sub(done))
}

// A stage that is a transfer goes on; the end is done.
fn status_of(stage: Stage) -> Status {
    if stage == Stage::End {
        Status::Done
    } else {
        Status::Going
    }
}

impl Place {
    // The next stage, with what the place holds.
    pub fn begun(self, stage: Stage) -> Turned {
        Turned {
            place: Place { stage, ..self },
            status: status_of(stage),
        }
    }

    // No stage comes after this one.
    pub fn ended(self, status: Status) -> Turned {
        let place = Place {
            stage: Stage::End,
            ..self
        };
        Turned { place, status }
    }

    fn with_registers(self, sr: u8, cr: u8) -> Place {
        Place { sr, cr, ..self }
    }

    // The place with so much more done.
    fn grown(self, more: usize) -> Place {
        Place {
            done: self.done.wrapping_add(more),
            ..self
        }
    }

    // The words after the first: `program` sends its data, the long id and the reads send zeros. The other
    // stages have none: 0 by definition `further_at`.
    fn further_word(self, index: u32, data: &[u8]) -> u32 {
        if self.stage == Stage::Program {
            data_word(data, (self.done as u64).wrapping_add(index as u64 * 4))
        } else {
            0
        }
    }
}

impl Script {
    // Whether the status byte shows the error bit of the work at hand.
    fn has_failed(self, status: u8) -> bool {
        if self.erasing {
            StatusRegister1(status).erase_error()
        } else {
            StatusRegister1(status).programming_error()
        }
    }
}

impl Wanted {
    // `new` has read both registers: it writes them where something asked for is not so yet.
    fn configure(self, place: Place, sr: u8) -> Turned {
        let Wanted {
            quad,
            latency,
            clear,
            ..
        } = self;
        let cr = place.cr;
        if registers::update_needed(quad, latency, clear, cr, sr) {
            let next = place.with_registers(
                registers::configured_sr(clear, sr),
                registers::configured_cr(quad, latency, cr),
            );
            next.begun(Stage::Enable)
        } else {
            place.ended(Status::Done)
        }
    }

    fn protect(self, place: Place, sr: u8) -> Turned {
        let next = place.with_registers(registers::protected(sr, self.protection), place.cr);
        next.begun(Stage::ReadConfig)
    }
}

// The transfers of a call, and what comes after each. The place is the call's own.
impl Job {
    // The size of a stage's transfer.
    pub fn frame(self, place: Place) -> Frame {
        match place.stage {
            Stage::Enable | Stage::Disable | Stage::Clear | Stage::End => {
                one_word(qspi::TX_DATA_01)
            }
            Stage::ReadStatus | Stage::ReadConfig | Stage::WriteStatus | Stage::Poll => {
                one_word(qspi::TX_DATA_10)
            }
            Stage::WriteRegisters => one_word(qspi::TX_DATA_11),
            Stage::ReadId | Stage::Erase => one_word(qspi::TX_DATA_00),
            Stage::ReadLongId => Frame {
                port: qspi::TX_DATA_00,
                words: 2,
                bytes: 12,
                twice: false,
            },
            Stage::Program => program_frame(place.chunk),
            Stage::Read => read_frame(place.chunk, self.reading.dummy),
            Stage::Registers => self.registers_frame(),
        }
    }

    // No word and no reply: only the count of accesses.
    fn registers_frame(self) -> Frame {
        Frame {
            port: qspi::CONFIG,
            words: self.low_level.sequence.more(),
            bytes: 0,
            twice: false,
        }
    }

    // The word that is sent after so many others.
    pub fn due_word(self, place: Place, sent: u32, data: &[u8]) -> u32 {
        if sent == 0 {
            self.first_word(place, data)
        } else {
            place.further_word(sent - 1, data)
        }
    }

    // The command word of a stage; 0 where it sends none, by definition `first_at`.
    fn first_word(self, place: Place, data: &[u8]) -> u32 {
        match place.stage {
            Stage::Enable => words::command_only(RegisterId::WriteEnable),
            Stage::Disable => words::command_only(RegisterId::WriteDisable),
            Stage::Clear => words::command_only(RegisterId::ClearStatus),
            Stage::ReadStatus | Stage::Poll => words::command_only(RegisterId::ReadStatus1),
            Stage::ReadConfig => words::command_only(RegisterId::ReadConfig),
            Stage::WriteStatus => words::write_status_word(place.sr),
            Stage::WriteRegisters => words::write_registers_word(place.sr, place.cr),
            Stage::ReadId | Stage::ReadLongId => words::command_only(RegisterId::ReadId),
            Stage::Erase => {
                words::command_word(RegisterId::SectorErase, self.sector_address(place, data))
            }
            Stage::Program => {
                words::command_word(RegisterId::PageProgram, self.chunk_address(place))
            }
            Stage::Read => self.read_word(place),
            Stage::Registers | Stage::End => 0,
        }
    }

    // Where the chunk at hand begins.
    fn chunk_address(self, place: Place) -> u32 {
        let done = (place.done as u64 % 0x1_0000_0000) as u32;
        self.addr.wrapping_add(done)
    }

    fn read_word(self, place: Place) -> u32 {
        let addr = self.chunk_address(place);
        if self.reading.fast {
            words::command_word(RegisterId::FastRead, addr)
        } else {
            words::command_word(RegisterId::Read, addr)
        }
    }

    // The sector to erase: the call's own, or that of its list.
    fn sector_address(self, place: Place, data: &[u8]) -> u32 {
        match self.script.sequel {
            Sequel::Once | Sequel::Pages => self.addr,
            Sequel::Sectors => listed_sector(data, place.done),
        }
    }

    // A transfer is over; `reply` is the last one taken.
    pub fn turn(self, place: Place, reply: u32) -> Turned {
        match place.stage {
            Stage::Enable => place.begun(self.script.after_enable),
            Stage::Disable => place.ended(self.script.after_disable),
            Stage::Clear => place.begun(self.script.after_clear),
            Stage::ReadStatus => self.status_read(place, words::top_byte(reply)),
            Stage::ReadConfig => self.config_read(place, words::top_byte(reply)),
            Stage::Erase | Stage::Program => place.begun(Stage::Poll),
            Stage::Poll => self.poll_end(place, words::top_byte(reply)),
            Stage::Read => self.read_on(place),
            Stage::WriteStatus
            | Stage::WriteRegisters
            | Stage::ReadId
            | Stage::ReadLongId
            | Stage::Registers
            | Stage::End => place.ended(Status::Done),
        }
    }

    // The status was read.
    fn status_read(self, place: Place, sr: u8) -> Turned {
        match self.script.purpose {
            Purpose::Answer => place.ended(Status::Done),
            Purpose::Configure => self.wanted.configure(place, sr),
            Purpose::Protect => self.wanted.protect(place, sr),
        }
    }

    // The config register was read.
    fn config_read(self, place: Place, cr: u8) -> Turned {
        let next = place.with_registers(place.sr, cr);
        match self.script.purpose {
            Purpose::Answer => place.ended(Status::Done),
            Purpose::Configure => next.begun(Stage::ReadStatus),
            Purpose::Protect => next.begun(Stage::Enable),
        }
    }

    // The status after program or erase: the error bit first, then bit 0.
    fn poll_end(self, place: Place, status: u8) -> Turned {
        if self.script.has_failed(status) {
            return place.begun(Stage::Clear);
        }
        if StatusRegister1(status).write_in_progress() {
            return place.begun(Stage::Poll);
        }
        self.settle(place)
    }

    // Program or erase has ended clean. Only here do the bytes of a chunk count as programmed, and a
    // sector of a list as finished.
    fn settle(self, place: Place) -> Turned {
        match self.script.sequel {
            Sequel::Once => place.ended(Status::Done),
            Sequel::Pages => self.next_page(place.grown(place.chunk as usize)),
            Sequel::Sectors => self.next_sector(place.grown(1)),
        }
    }

    // A chunk of a read is done: the next one, or the end.
    fn read_on(self, place: Place) -> Turned {
        let done = place.done.wrapping_add(place.chunk as usize);
        let chunk = next_chunk(self.lent.buffer, done, self.reading.dummy);
        let next = Place {
            stage: Stage::Read,
            done,
            chunk,
            ..place
        };
        if chunk == 0 {
            next.ended(Status::Done)
        } else {
            next.begun(Stage::Read)
        }
    }

    // The chunk of `write_pages` after the bytes done: its write enable, or the end, or what `program`
    // refuses it for, 4 before 5. 1 was tested on the whole length, and no chunk is too large for 3.
    pub fn next_page(self, place: Place) -> Turned {
        let chunk = page_chunk(self.lent.data, place.done);
        let next = Place {
            stage: Stage::Enable,
            chunk,
            ..place
        };
        if chunk == 0 {
            return next.ended(Status::Done);
        }
        if chunk % 4 != 0 {
            return next.ended(Status::NotAligned);
        }
        if limits::crosses_page(self.chunk_address(next), chunk as usize) {
            return next.ended(Status::CrossesPageBoundary);
        }
        next.begun(Stage::Enable)
    }

    // The sector of a list after those finished: its write enable, or the end. Its rules were tested before
    // the first access.
    pub fn next_sector(self, place: Place) -> Turned {
        if place.done < self.lent.data {
            place.begun(Stage::Enable)
        } else {
            place.ended(Status::Done)
        }
    }
}
